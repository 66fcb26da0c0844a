--  The images of parameters and items, and a static constant in brackets.
with Ada.Text_IO;
use Ada.Text_IO;
procedure Main is
   Last : constant Integer := 3;
   Squares : array (1 .. (Last)) of Integer := (for I in 1 .. (Last) => I * I);
begin
   for I in reverse 1 .. Last loop
      Put_Line (I'Image & Squares (I)'Image);
   end loop;
   for Square of Squares loop
      Put_Line (Square'Image);
   end loop;
   Put_Line (Integer'Image ((Last) - 4));
end Main;
