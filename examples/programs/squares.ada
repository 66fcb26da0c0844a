--  A parallel loop, and two parallel reductions of what it leaves.
with Ada.Text_IO; use Ada.Text_IO;
procedure Main is
   A : constant array (1 .. 8) of Integer := (3, 1, 4, 1, 5, 9, 2, 6);
   B : array (1 .. 8) of Integer := (others => 0);
begin
   parallel for I in 1 .. 8 loop
      B (I) := A (I) ** 2;
   end loop;
   Put_Line ("the sum of squares is" & Integer'Image (B'Parallel_Reduce ("+", 0)));
   Put_Line ("even are" & Integer'Image ([parallel for X of A when X mod 2 = 0 => 1]'Reduce ("+", 0)));
end Main;
