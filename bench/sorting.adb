with Ada.Text_IO; use Ada.Text_IO;
procedure Sorting is
   Size : constant := 64;
   A : array (1 .. Size, 1 .. Size) of Integer;
   Check : Integer := 0;
begin
   for Round in 1 .. 10 loop
      for I in 1 .. Size loop
         for K in 1 .. Size loop
            A (I, K) := (I * 7919 + K * K * 104_729 + Round) mod 1009;
         end loop;
         for K in 2 .. Size loop
            declare
               Item : constant Integer := A (I, K);
               Place : Natural := K;
            begin
               while Place > 1 and then A (I, Place - 1) > Item loop
                  A (I, Place) := A (I, Place - 1);
                  Place := Place - 1;
               end loop;
               A (I, Place) := Item;
            end;
         end loop;
      end loop;
      for I in 1 .. Size loop
         for K in 1 .. Size loop
            Check := (Check * 31 + A (I, K)) mod 1_000_003;
         end loop;
      end loop;
   end loop;
   Put_Line (Integer'Image (Check));
end Sorting;
