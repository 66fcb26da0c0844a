-- A dimension that the array doesn't have.
procedure Main is
   A : array (1 .. 3) of Integer;
   Size : Integer := A'Length (2);
begin
   null;
end Main;
