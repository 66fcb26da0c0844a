with Ada.Text_IO; use Ada.Text_IO;
procedure Main is
   X : Integer := 2;
begin
   X := X + 3;
   Put_Line (Integer'Image (X));
end Main;
