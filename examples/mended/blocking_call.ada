-- What may block is called where the rule doesn't reach.
with Ada.Text_IO;
procedure Main is
   procedure Tell is
   begin
      Ada.Text_IO.Put_Line ("here");
   end Tell;
begin
   Tell;
end Main;
