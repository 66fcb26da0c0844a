--  Sum, mean, least, greatest and spread of measured values, each by a parallel reduction.
with Ada.Text_IO; use Ada.Text_IO;
procedure Main is
   Values : constant array (1 .. 8) of Integer := (12, 15, 11, 14, 18, 10, 13, 19);
   Sum : constant Integer := Values'Parallel_Reduce ("+", 0);
   Mean : constant Integer := Sum / Values'Length;
   Least : constant Integer := Values'Parallel_Reduce (Integer'Min, Integer'Last);
   Greatest : constant Integer := Values'Parallel_Reduce (Integer'Max, Integer'First);
   Squares : constant Integer := [parallel for V of Values => (V - Mean) ** 2]'Reduce ("+", 0);
   Above : constant Natural := [parallel for V of Values when V > Mean => 1]'Reduce ("+", 0);
begin
   Put_Line ("sum" & Sum'Image & ", mean" & Mean'Image);
   Put_Line ("from" & Least'Image & " to" & Greatest'Image);
   Put_Line ("squares of differences" & Squares'Image);
   Put_Line ("above the mean:" & Above'Image);
end Main;
