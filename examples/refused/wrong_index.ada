-- An index of another type.
procedure Main is
   A : array (1 .. 3) of Integer;
begin
   A (True) := 4;
end Main;
