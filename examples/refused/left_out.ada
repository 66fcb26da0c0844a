with Ada.Text_IO; use Ada.Text_IO;
procedure Main is
task T;
begin
null;
end Main;
