-- Each name is declared before it is used.
with Ada.Text_IO; use Ada.Text_IO;
procedure Main is
   Total : Integer := 2;
begin
   Total := Total + 3;
   Put_Line (Integer'Image (Total));
end Main;
