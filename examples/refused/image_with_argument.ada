-- The image of a loop's parameter, which takes no argument.
with Ada.Text_IO;
use Ada.Text_IO;
procedure Main is
begin
   for I in 1 .. 2 loop
      Put_Line (I'Image (1));
   end loop;
end Main;
