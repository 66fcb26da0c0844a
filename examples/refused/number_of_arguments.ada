-- Too many arguments: blamed at the bracket.
procedure Main is
   function Twice (N : Integer) return Integer is (2 * N);
   X : Integer := Twice (1, 2);
begin
   null;
end Main;
