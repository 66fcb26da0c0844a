--  The hashes (FNV-1a, 32 bits) of five words at once, each word a row of letters' codes; then which bucket of eight each falls into.
with Ada.Text_IO, Ada.Integer_Text_IO;
use Ada.Text_IO, Ada.Integer_Text_IO;
procedure Main is
   type Hash is mod 2 ** 32;
   Prime : constant := 16_777_619;
   Start : constant := 2_166_136_261;

   --  apple, bread, cloud, dream, eagle
   Words : constant array (1 .. 5, 1 .. 5) of Hash :=
     ((97, 112, 112, 108, 101), (98, 114, 101, 97, 100), (99, 108, 111, 117, 100),
      (100, 114, 101, 97, 109), (101, 97, 103, 108, 101));
   Hashes : array (1 .. 5) of Hash;

   function Of_Word (W : Integer) return Hash with Nonblocking is
      H : Hash := Start;
   begin
      for I in 1 .. 5 loop
         H := (H xor Words (W, I)) * Prime;
      end loop;
      return H;
   end Of_Word;

begin
   parallel for W in Hashes'Range loop
      Hashes (W) := Of_Word (W);
   end loop;
   for W in Hashes'Range loop
      Put (W, Width => 1);
      Put_Line (":" & Hash'Image (Hashes (W)) & " bucket" & Hash'Image (Hashes (W) mod 8));
   end loop;
end Main;
