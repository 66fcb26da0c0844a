--  A matrix, transposed row by row into another: each thread writes a column of its own.
with Ada.Text_IO, Ada.Integer_Text_IO;
use Ada.Text_IO, Ada.Integer_Text_IO;
procedure Main is
   A : constant array (1 .. 2, 1 .. 3) of Integer := ((1, 2, 3), (4, 5, 6));
   B : array (1 .. 3, 1 .. 2) of Integer := (others => (others => 0));
begin
   parallel for I in A'Range (1) loop
      for J in A'Range (2) loop
         B (J, I) := A (I, J);
      end loop;
   end loop;
   for J in B'Range (1) loop
      Put (B (J, 1), Width => 3);
      Put (B (J, 2), Width => 3);
      New_Line;
   end loop;
end Main;
