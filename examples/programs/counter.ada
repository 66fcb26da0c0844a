--  How many numbers up to 100 have an even number of divisors, and their sum: no counter is shared, since a parallel
--  reduction gives each thread an accumulator of its own.
with Ada.Text_IO; use Ada.Text_IO;
procedure Main is
   function Divisors (N : Positive) return Natural with Nonblocking is
   begin
      return [for D in 1 .. N when N mod D = 0 => 1]'Reduce ("+", 0);
   end Divisors;
   Evens : constant Natural := [parallel for N in 1 .. 100 when Divisors (N) mod 2 = 0 => 1]'Reduce ("+", 0);
   Sum : constant Natural := [parallel (4) for N in 1 .. 100 when Divisors (N) mod 2 = 0 => N]'Reduce ("+", 0);
begin
   Put_Line ("numbers:" & Integer'Image (Evens));
   Put_Line ("sum:" & Integer'Image (Sum));
end Main;
