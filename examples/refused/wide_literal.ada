with Ada.Text_IO; use Ada.Text_IO;
procedure Main is
X : Integer := 1E99;
begin
Put_Line (Integer'Image (X));
end Main;
