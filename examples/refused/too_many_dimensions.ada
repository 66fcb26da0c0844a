-- An array of more than four dimensions.
procedure Main is
   A : array (1 .. 2, 1 .. 2, 1 .. 2, 1 .. 2, 1 .. 2) of Integer;
begin
   null;
end Main;
