-- A simple name of a package without its use clause.
with Ada.Text_IO;
procedure Main is
begin
   Put_Line ("hello");
end Main;
