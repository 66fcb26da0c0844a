-- An exception named twice in the handlers of one body.
with Ada.Text_IO; use Ada.Text_IO;
procedure Main is
begin
   null;
exception
   when Constraint_Error => Put_Line ("a check");
   when Program_Error | Constraint_Error => Put_Line ("an error");
end Main;
