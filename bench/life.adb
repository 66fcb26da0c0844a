with Ada.Text_IO; use Ada.Text_IO;
procedure Life is
   Size : constant := 64;
   type Board is array (0 .. Size + 1, 0 .. Size + 1) of Integer;
   Now : Board := (others => (others => 0));
   Before : Board;
   Alive : Integer;

   function Neighbours (Row, Column : Positive) return Integer is
   begin
      return Before (Row - 1, Column - 1) + Before (Row - 1, Column) + Before (Row - 1, Column + 1)
        + Before (Row, Column - 1) + Before (Row, Column + 1)
        + Before (Row + 1, Column - 1) + Before (Row + 1, Column) + Before (Row + 1, Column + 1);
   end Neighbours;

begin
   for I in 1 .. Size loop
      for J in 1 .. Size loop
         Now (I, J) := (I * 7 + J * 13 + I * J) mod 5 mod 2;
      end loop;
   end loop;
   for Generation in 1 .. 50 loop
      Before := Now;
      for I in 1 .. Size loop
         for J in 1 .. Size loop
            case Neighbours (I, J) is
               when 2 => Now (I, J) := Before (I, J);
               when 3 => Now (I, J) := 1;
               when others => Now (I, J) := 0;
            end case;
         end loop;
      end loop;
      Alive := 0;
      for Cell of Now loop
         Alive := Alive + Cell;
      end loop;
      Put_Line (Integer'Image (Alive));
   end loop;
end Life;
