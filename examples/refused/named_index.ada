-- An index with a name before it.
procedure Main is
   A : array (1 .. 3) of Integer;
begin
   A (First => 1) := 2;
end Main;
