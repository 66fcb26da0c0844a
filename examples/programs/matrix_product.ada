--  The product of two matrices, with its trace and its determinant.
with Ada.Text_IO, Ada.Integer_Text_IO;
use Ada.Text_IO, Ada.Integer_Text_IO;
procedure Main is
   A : constant array (1 .. 2, 1 .. 3) of Integer := ((1, 2, 3), (4, 5, 6));
   B : constant array (1 .. 3, 1 .. 2) of Integer := ((7, 8), (9, 10), (11, 12));
   C : array (1 .. 2, 1 .. 2) of Integer := (others => (others => 0));
begin
   for I in C'Range (1) loop
      for J in C'Range (2) loop
         for K in A'Range (2) loop
            C (I, J) := @ + A (I, K) * B (K, J);
         end loop;
         Put (C (I, J), Width => 5);
      end loop;
      New_Line;
   end loop;
   Put_Line ("trace:" & Integer'Image (C (1, 1) + C (2, 2)));
   Put_Line ("determinant:" & Integer'Image (C (1, 1) * C (2, 2) - C (1, 2) * C (2, 1)));
end Main;
