--  The sum of a row: the reduction gives each thread an accumulator of its own, and adds these at the end.
with Ada.Text_IO; use Ada.Text_IO;
procedure Main is
   Row : constant array (1 .. 4) of Integer := (9, 1, 9, 1);
   Sum : Integer := 0;
begin
   Sum := [parallel for I in Row'Range => Row (I)]'Reduce ("+", 0);
   Put_Line ("the sum is" & Sum'Image);
end Main;
