-- A value sequence backwards.
procedure Main is
   X : Integer;
begin
   X := [for I in reverse 1 .. 10 => I]'Reduce ("-", 0);
end Main;
