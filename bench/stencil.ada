--  Heat spreads along a rod: 100 steps, each by threads that read the old rod and write a new one.
pragma Conflict_Check_Policy (Known_Parallel_Conflict_Checks);
with Ada.Text_IO; use Ada.Text_IO;
procedure Main is
   type Rod is array (0 .. 10_001) of Integer;
   Old : Rod := [for I in 0 .. 10_001 => I * 7919 mod 10_007];
   Next : Rod := (others => 0);
begin
   for Step in 1 .. 100 loop
      parallel for I in 0 .. 9_999 loop
         Next (I + 1) := (Old (I) + Old (I + 1) + Old (I + 2)) / 3;
      end loop;
      Old := Next;
   end loop;
   Put_Line (Integer'Image (Old'Parallel_Reduce ("+", 0)));
end Main;
