--  A row is shifted by one place into another: thread I writes B (I + 1) alone.
pragma Conflict_Check_Policy (Known_Parallel_Conflict_Checks);
with Ada.Text_IO, Ada.Integer_Text_IO;
use Ada.Text_IO, Ada.Integer_Text_IO;
procedure Main is
   A : constant array (1 .. 5) of Integer := (3, 1, 4, 1, 5);
   B : array (1 .. 5) of Integer := (others => 0);
begin
   parallel for I in 1 .. 4 loop
      B (I + 1) := A (I);
   end loop;
   for X of B loop
      Put (X, Width => 3);
   end loop;
   New_Line;
end Main;
