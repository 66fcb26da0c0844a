--  A number is halved where it is even, and else tripled and increased, until it is 1: the number up to 30 that takes the
--  most steps, found by two parallel reductions.
with Ada.Text_IO; use Ada.Text_IO;
procedure Main is
   function Steps (Start : Positive) return Natural with Nonblocking is
      N : Positive := Start;
      Count : Natural := 0;
   begin
      while N > 1 loop
         N := (if N mod 2 = 0 then N / 2 else 3 * N + 1);
         Count := Count + 1;
      end loop;
      return Count;
   end Steps;

   Most : constant Natural := [parallel for N in 1 .. 30 => Steps (N)]'Reduce (Natural'Max, 0);
   First : constant Natural := [parallel for N in 1 .. 30 when Steps (N) = Most => N]'Reduce (Natural'Min, 31);
begin
   Put_Line (First'Image & " takes" & Most'Image & " steps");
end Main;
