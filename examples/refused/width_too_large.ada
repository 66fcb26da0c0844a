-- A Width outside 0 .. 255.
with Ada.Integer_Text_IO; use Ada.Integer_Text_IO;
procedure Main is
begin
   Put (42, Width => 256);
end Main;
