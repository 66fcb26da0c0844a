--  In how many ways eight queens stand on a board so that none attacks another: the squares of the first row are tried
--  side by side, and the numbers of ways are added.
with Ada.Text_IO; use Ada.Text_IO;
procedure Main is
   type Queens is array (1 .. 8) of Natural;

   function Fits (Placed : Queens; Row, Column : Positive) return Boolean with Nonblocking is
   begin
      for R in 1 .. Row - 1 loop
         if Placed (R) = Column or abs (Placed (R) - Column) = Row - R then
            return False;
         end if;
      end loop;
      return True;
   end Fits;

   function Ways (Placed : Queens; Row, Column : Positive) return Natural with Nonblocking is
      Now : Queens := Placed;
      Sum : Natural := 0;
   begin
      if not Fits (Placed, Row, Column) then
         return 0;
      end if;
      if Row = 8 then
         return 1;
      end if;
      Now (Row) := Column;
      for Next in 1 .. 8 loop
         Sum := Sum + Ways (Now, Row + 1, Next);
      end loop;
      return Sum;
   end Ways;

   None : constant Queens := (others => 0);
begin
   Put_Line ("ways:" & Natural'Image ([parallel for C in 1 .. 8 => Ways (None, 1, C)]'Reduce ("+", 0)));
end Main;
