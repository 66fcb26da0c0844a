-- A division by a static constant in brackets, which is zero.
procedure Main is
   Zero : constant Integer := 0;
   N : constant := 1 / (Zero);
begin
   null;
end Main;
