-- A nonblocking subprogram calls nothing that may block (9.5).
with Ada.Text_IO;
procedure Main is
   procedure Tell with Nonblocking is
   begin
      Ada.Text_IO.Put_Line ("here");
   end Tell;
begin
   Tell;
end Main;
