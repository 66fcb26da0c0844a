--  Four generations of the game of life: a glider goes one square down and one to the right.
with Ada.Text_IO; use Ada.Text_IO;
procedure Main is
   Size : constant := 4;
   type Board is array (0 .. Size + 1, 0 .. Size + 1) of Boolean;
   Now, Before : Board;

   function Neighbours (B : Board; Row, Column : Positive) return Natural is
      Count : Natural := 0;
   begin
      for I in Row - 1 .. Row + 1 loop
         for J in Column - 1 .. Column + 1 when B (I, J) loop
            if I /= Row or J /= Column then
               Count := Count + 1;
            end if;
         end loop;
      end loop;
      return Count;
   end Neighbours;

   procedure Show (Generation : Natural) is
   begin
      Put_Line ("generation" & Generation'Image);
      for I in 1 .. Size loop
         for J in 1 .. Size loop
            if Now (I, J) then
               Put ("#");
            else
               Put (".");
            end if;
         end loop;
         New_Line;
      end loop;
   end Show;

begin
   Now (1, 2) := True;
   Now (2, 3) := True;
   for J in 1 .. 3 loop
      Now (3, J) := True;
   end loop;
   Show (0);
   for Generation in 1 .. 4 loop
      Before := Now;
      for I in 1 .. Size loop
         for J in 1 .. Size loop
            Now (I, J) := Neighbours (Before, I, J) = 3 or (Before (I, J) and Neighbours (Before, I, J) = 2);
         end loop;
      end loop;
      Show (Generation);
   end loop;
end Main;
