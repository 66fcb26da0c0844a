-- A package that this language doesn't have.
with Ada.Text_IO, Ada.Calendar;
procedure Main is
begin
   Ada.Text_IO.Put_Line ("today");
end Main;
