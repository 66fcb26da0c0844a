--  Heat spreads along a rod: each inner point becomes the mean of itself and its neighbours. Thread I writes point I + 1
--  of the new rod and reads three points of the old one: an index that is the loop's parameter and a distance keeps the
--  threads apart like the parameter alone. The policy leaves the disjoint rule alone, which alone knows distances.
pragma Conflict_Check_Policy (Known_Parallel_Conflict_Checks);
with Ada.Text_IO, Ada.Integer_Text_IO;
use Ada.Text_IO, Ada.Integer_Text_IO;
procedure Main is
   type Rod is array (0 .. 6) of Integer;
   Old : Rod := (0, 0, 0, 900, 0, 0, 0);
   Next : Rod := (others => 0);
begin
   for Step in 1 .. 2 loop
      parallel for I in 0 .. 4 loop
         Next (I + 1) := (Old (I) + Old (I + 1) + Old (I + 2)) / 3;
      end loop;
      Old := Next;
   end loop;
   for X of Old loop
      Put (X, Width => 4);
   end loop;
   New_Line;
end Main;
