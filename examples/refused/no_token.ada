with Ada.Text_IO; use Ada.Text_IO;
procedure Main is
X : Integer := 2;
begin
X := 1E-3;
end Main;
