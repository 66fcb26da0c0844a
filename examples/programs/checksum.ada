--  A block of data is sent with a checksum of its words, each turned by its place, so that a flipped digit and two words that
--  changed places are both seen.
with Ada.Text_IO; use Ada.Text_IO;
procedure Main is
   type Word is mod 2 ** 32;
   Length : constant := 1_000;
   Data : array (1 .. Length) of Word;

   function Turned (W : Word; By : Natural) return Word is
     (W * 2 ** By or W / 2 ** (32 - By)) with Nonblocking;

   function Sum return Word is
     ([parallel for I in Data'Range => Turned (Data (I), I mod 31 + 1)]'Reduce ("xor", 0));

   Sent, Kept : Word;
begin
   parallel for I in Data'Range loop
      Data (I) := Word (I) * 2_654_435_761;
   end loop;
   Sent := Sum;
   Put_Line ("sent:     " & Word'Image (Sent));

   Data (500) := Data (500) xor 2 ** 7;
   Put_Line ("one digit:" & Word'Image (Sum) & ", which differs: " & Boolean'Image (Sum /= Sent));
   Data (500) := Data (500) xor 2 ** 7;

   Kept := Data (10);
   Data (10) := Data (20);
   Data (20) := Kept;
   Put_Line ("two words:" & Word'Image (Sum) & ", which differs: " & Boolean'Image (Sum /= Sent));
   Data (20) := Data (10);
   Data (10) := Kept;
   Put_Line ("as sent:  " & Word'Image (Sum));
end Main;
