--  The game of life on a board of 64 by 64 with a dead edge, 50 generations: a thread has rows of the new board.
--  All threads read the old one, which the disjoint rule alone allows.
pragma Conflict_Check_Policy (Known_Parallel_Conflict_Checks);
with Ada.Text_IO; use Ada.Text_IO;
procedure Main is
   Size : constant := 64;
   type Board is array (0 .. Size + 1, 0 .. Size + 1) of Integer;
   Now : Board := (others => (others => 0));
   Before : Board;

   function Neighbours (Row, Column : Positive) return Integer with Nonblocking is
   begin
      return Before (Row - 1, Column - 1) + Before (Row - 1, Column) + Before (Row - 1, Column + 1)
        + Before (Row, Column - 1) + Before (Row, Column + 1)
        + Before (Row + 1, Column - 1) + Before (Row + 1, Column) + Before (Row + 1, Column + 1);
   end Neighbours;

begin
   for I in 1 .. Size loop
      for J in 1 .. Size loop
         Now (I, J) := (I * 7 + J * 13 + I * J) mod 5 mod 2;
      end loop;
   end loop;
   for Generation in 1 .. 50 loop
      Before := Now;
      parallel for I in 1 .. Size loop
         for J in 1 .. Size loop
            case Neighbours (I, J) is
               when 2 => Now (I, J) := Before (I, J);
               when 3 => Now (I, J) := 1;
               when others => Now (I, J) := 0;
            end case;
         end loop;
      end loop;
      Put_Line (Integer'Image (Now'Parallel_Reduce ("+", 0)));
   end loop;
end Main;
