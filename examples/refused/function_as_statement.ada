-- A function as a statement.
procedure Main is
   function Twice (N : Integer) return Integer is (2 * N);
begin
   Twice (3);
end Main;
