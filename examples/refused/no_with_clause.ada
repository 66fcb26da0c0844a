-- An expanded name without the with clause.
with Ada.Text_IO; use Ada.Text_IO;
procedure Main is
begin
   Put ("three:");
   Ada.Integer_Text_IO.Put (3);
end Main;
