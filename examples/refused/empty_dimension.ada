-- A dimension without a value.
procedure Main is
   A : array (1 .. 3, 1 .. 0) of Integer;
begin
   null;
end Main;
