--  Greatest common divisors, and what can be done with the digits of a number.
with Ada.Text_IO; use Ada.Text_IO;
procedure Main is
   function Gcd (A, B : Natural) return Natural is
   begin
      if B = 0 then
         return A;
      else
         return Gcd (B, A mod B);
      end if;
   end Gcd;

   function Digit_Sum (N : Natural) return Natural is
      Rest : Natural := N;
      Sum : Natural := 0;
   begin
      while Rest > 0 loop
         Sum := Sum + Rest mod 10;
         Rest := Rest / 10;
      end loop;
      return Sum;
   end Digit_Sum;

   function Backwards (N : Natural) return Natural is
      Rest : Natural := N;
      Result : Natural := 0;
   begin
      while Rest > 0 loop
         Result := 10 * Result + Rest mod 10;
         Rest := Rest / 10;
      end loop;
      return Result;
   end Backwards;

begin
   Put_Line ("gcd of 1071 and 462:" & Natural'Image (Gcd (1071, 462)));
   Put_Line ("least common multiple of 12 and 18:" & Natural'Image (12 / Gcd (12, 18) * 18));
   Put_Line ("digit sum of 98765:" & Natural'Image (Digit_Sum (98_765)));
   Put_Line ("12340 backwards:" & Natural'Image (Backwards (12_340)));
   for N in 1 .. 30 loop
      if Backwards (N ** 2) = N ** 2 then
         Put_Line (Integer'Image (N) & " squared is" & Integer'Image (N ** 2));
      end if;
   end loop;
end Main;
