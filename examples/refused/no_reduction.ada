-- Another attribute than Reduce after a value sequence.
procedure Main is
   X : Integer;
begin
   X := [for I in 1 .. 10 => I]'Parallel_Reduce ("+", 0);
end Main;
