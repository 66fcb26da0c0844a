-- Output may block, so a thread of a parallel loop puts nothing out (9.5).
with Ada.Text_IO; use Ada.Text_IO;
procedure Main is
begin
   parallel for I in 1 .. 4 loop
      Put_Line ("x");
   end loop;
end Main;
