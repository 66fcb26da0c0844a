-- The bound of an array that isn't static.
procedure Main is
   Size : Integer := 3;
   A : array (1 .. Size) of Integer;
begin
   null;
end Main;
