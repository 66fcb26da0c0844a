-- The same letter in UTF-8: é
with Ada.Text_IO; use Ada.Text_IO;
procedure Main is
   X : Integer := 2;
begin
   Put_Line (Integer'Image (X));
end Main;
