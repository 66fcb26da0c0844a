-- A name without a declaration in scope.
with Ada.Text_IO; use Ada.Text_IO;
procedure Main is
   Total : Integer := 2;
begin
   Totl := Total + 3;
   Put_Line (Integer'Image (Total));
end Main;
