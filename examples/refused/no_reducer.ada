-- An operator by which nothing is reduced.
procedure Main is
   X : Integer;
begin
   X := [for I in 1 .. 10 => I]'Reduce ("**", 1);
end Main;
