-- A Width that isn't static.
with Ada.Integer_Text_IO; use Ada.Integer_Text_IO;
procedure Main is
   W : Integer := 5;
begin
   Put (42, Width => W);
end Main;
