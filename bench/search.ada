--  Threads look for the one number whose square has a given rest by a prime, 200 times, and the first that finds it ends the
--  search. Of the two roots one is below half of the prime.
with Ada.Text_IO; use Ada.Text_IO;
procedure Main is
   Prime : constant := 40_009;
   Sum : Integer := 0;

   function Root (Square : Natural) return Natural with Nonblocking is
   begin
      parallel for I in 1 .. (Prime - 1) / 2 loop
         if I * I mod Prime = Square then
            return I;
         end if;
      end loop;
      return 0;
   end Root;

begin
   for I in 1 .. 200 loop
      Sum := Sum + Root ((I * 997 mod Prime) * (I * 997 mod Prime) mod Prime);
   end loop;
   Put_Line (Integer'Image (Sum));
end Main;
