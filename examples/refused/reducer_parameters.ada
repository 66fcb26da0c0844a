-- A function that isn't of an accumulator and a value.
procedure Main is
   function Twice (N : Integer) return Integer is (2 * N);
   X : Integer;
begin
   X := [for I in 1 .. 10 => I]'Reduce (Twice, 0);
end Main;
