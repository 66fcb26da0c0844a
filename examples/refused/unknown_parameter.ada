-- A named parameter that the procedure lacks.
with Ada.Text_IO; use Ada.Text_IO;
procedure Main is
   procedure Show (Item : Integer) is
   begin
      Put_Line (Integer'Image (Item));
   end Show;
begin
   Show (Value => 3);
end Main;
