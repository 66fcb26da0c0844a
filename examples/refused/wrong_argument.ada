-- An argument of another type.
procedure Main is
   function Twice (N : Integer) return Integer is (2 * N);
   X : Integer := Twice (False);
begin
   null;
end Main;
