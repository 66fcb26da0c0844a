--  The least and the greatest number of a row, found side by side: each arm writes a variable of its own. The strict rule
--  lets no arm touch a global variable, so the policy asks for the disjoint rule alone.
pragma Conflict_Check_Policy (Known_Parallel_Conflict_Checks);
with Ada.Text_IO; use Ada.Text_IO;
procedure Main is
   Row : array (1 .. 8) of Integer := (31, -4, 15, 92, -65, 35, 89, 7);
   Least : Integer := Row (1);
   Greatest : Integer := Row (1);
begin
   parallel do
      for X of Row loop
         if X < Least then
            Least := X;
         end if;
      end loop;
   and
      for X of Row loop
         if X > Greatest then
            Greatest := X;
         end if;
      end loop;
   end do;
   Put_Line ("from" & Integer'Image (Least) & " to" & Integer'Image (Greatest));
end Main;
