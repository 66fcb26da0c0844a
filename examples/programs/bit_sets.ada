--  Sets of the numbers 0 to 63, each a number with 64 binary digits: what two friends can both, one or neither of them do on.
with Ada.Text_IO, Ada.Integer_Text_IO;
use Ada.Text_IO, Ada.Integer_Text_IO;
procedure Main is
   type Set is mod 2 ** 64;
   subtype Member is Integer range 0 .. 63;
   Days : constant array (1 .. 8) of Member := (1, 4, 9, 16, 25, 36, 49, 63);
   Squares, Odd : Set := 0;

   function Has (S : Set; M : Member) return Boolean is (S / 2 ** M mod 2 = 1);

   procedure Include (S : in out Set; M : Member) is
   begin
      S := S or 2 ** M;
   end Include;

   function Size (S : Set) return Natural is
      Rest : Set := S;
      Count : Natural := 0;
   begin
      while Rest /= 0 loop
         Rest := Rest and (Rest - 1);
         Count := Count + 1;
      end loop;
      return Count;
   end Size;

   procedure Show (S : Set) is
   begin
      for M in Member loop
         if Has (S, M) then
            Put (M, Width => 3);
         end if;
      end loop;
      Put_Line (" : " & Integer'Image (Size (S)));
   end Show;

begin
   for D of Days loop
      Include (Squares, D);
   end loop;
   Odd := [parallel for M in Member when M mod 2 = 1 => Set (2) ** M]'Reduce ("or", 0);
   Show (Squares);
   Show (Squares and Odd);
   Show (Squares and not Odd);
   Put_Line ("in one of them:" & Integer'Image (Size (Squares xor Odd)));
   Put_Line ("in neither:" & Integer'Image (Size (not (Squares or Odd))));
end Main;
