-- The dimension of an attribute that isn't static.
procedure Main is
   Board : array (1 .. 8, 1 .. 8) of Boolean;
   D : Integer := 2;
   Size : Integer := Board'Length (D);
begin
   null;
end Main;
