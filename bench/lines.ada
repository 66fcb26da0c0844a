with Ada.Text_IO; use Ada.Text_IO;
procedure Main is
begin
   for I in 1 .. 1_000_000 loop
      Put_Line (Integer'Image (I));
   end loop;
end Main;
