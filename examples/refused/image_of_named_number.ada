-- The image of a named number, which is no object.
with Ada.Text_IO;
use Ada.Text_IO;
procedure Main is
   Limit : constant := 3;
begin
   Put_Line (Limit'Image);
end Main;
