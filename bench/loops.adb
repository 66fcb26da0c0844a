with Ada.Text_IO; use Ada.Text_IO;
procedure Loops is
   A : array (1 .. 200_000) of Integer := (others => 0);
   S : Integer := 0;
begin
   for R in 1 .. 10 loop
      for I in A'Range loop
         A (I) := (A (I) * 3 + I + R) mod 1000;
      end loop;
   end loop;
   for I in A'Range loop
      S := S + A (I);
   end loop;
   Put_Line (Integer'Image (S));
end Loops;
