-- An assignment to what is no object.
procedure Main is
   function Twice (N : Integer) return Integer is (2 * N);
begin
   Twice := 1;
end Main;
