-- A product is reduced by an operator that reducers name.
procedure Main is
   X : Integer;
begin
   X := [for I in 1 .. 10 => I]'Reduce ("*", 1);
end Main;
