--  Sums of all fronts of a row, in three steps for eight numbers: in each, the sums so far of twice as many numbers are
--  made from those of a row before, so that no thread reads what another one writes.
pragma Conflict_Check_Policy (Known_Parallel_Conflict_Checks);
with Ada.Text_IO, Ada.Integer_Text_IO;
use Ada.Text_IO, Ada.Integer_Text_IO;
procedure Main is
   type Row is array (1 .. 8) of Integer;
   Sums : Row := (3, 1, 4, 1, 5, 9, 2, 6);
   Before : Row;
   Distance : Positive := 1;
begin
   while Distance < 8 loop
      Before := Sums;
      parallel for I in 1 .. 8 loop
         if I > Distance then
            Sums (I) := Before (I - Distance) + Before (I);
         end if;
      end loop;
      Distance := 2 * Distance;
   end loop;
   for Sum of Sums loop
      Put (Sum, Width => 4);
   end loop;
   New_Line;
end Main;
