-- An others that isn't last.
with Ada.Text_IO; use Ada.Text_IO;
procedure Main is
begin
   null;
exception
   when others => Put_Line ("any");
   when Constraint_Error => Put_Line ("a check");
end Main;
