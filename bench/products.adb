with Ada.Text_IO; use Ada.Text_IO;
procedure Products is
   type Mat is array (1 .. 64, 1 .. 64) of Integer;
   A, B, C : Mat;
   S : Integer;
begin
   for I in 1 .. 64 loop
      for K in 1 .. 64 loop
         A (I, K) := I + K;
         B (I, K) := I - K;
      end loop;
   end loop;
   for R in 1 .. 50 loop
      for I in 1 .. 64 loop
         for J in 1 .. 64 loop
            S := 0;
            for K in 1 .. 64 loop
               S := S + A (I, K) * B (K, J);
            end loop;
            C (I, J) := S;
         end loop;
      end loop;
   end loop;
   S := 0;
   for I in 1 .. 64 loop
      for J in 1 .. 64 loop
         S := S + C (I, J);
      end loop;
   end loop;
   Put_Line (Integer'Image (S));
end Products;
