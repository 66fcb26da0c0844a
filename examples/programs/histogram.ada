--  How often each digit stands in a row of numbers: each chunk counts in a row of its own, and then the rows are added.
with Ada.Text_IO, Ada.Integer_Text_IO;
use Ada.Text_IO, Ada.Integer_Text_IO;
procedure Main is
   Data : constant array (1 .. 20) of Integer := (3, 1, 4, 1, 5, 9, 2, 6, 5, 3, 5, 8, 9, 7, 9, 3, 2, 3, 8, 4);
   Counts : array (1 .. 4, 0 .. 9) of Natural := (others => (others => 0));
begin
   parallel (C in 1 .. 4) for I in Data'Range loop
      Counts (C, Data (I)) := @ + 1;
   end loop;
   for Digit in 0 .. 9 loop
      Put (Digit, Width => 1);
      Put (":");
      Put ([for C in 1 .. 4 => Counts (C, Digit)]'Reduce ("+", 0), Width => 3);
      New_Line;
   end loop;
end Main;
