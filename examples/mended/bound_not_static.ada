-- The bound is a constant whose value is known before the program runs.
procedure Main is
   Size : constant Integer := 3;
   A : array (1 .. Size) of Integer;
begin
   null;
end Main;
