-- A use clause without a with clause before it.
use Ada.Text_IO;
with Ada.Text_IO;
procedure Main is
begin
   Put_Line ("hello");
end Main;
