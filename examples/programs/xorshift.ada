--  Four streams of random numbers (xorshift, 64 bits), each with a seed and a thread of its own, throw points at a square:
--  how many fall into the quarter circle tells pi.
with Ada.Text_IO; use Ada.Text_IO;
procedure Main is
   type Word is mod 2 ** 64;
   Throws : constant := 1_000;
   Side : constant := 2 ** 15;

   Seeds : constant array (1 .. 4) of Word :=
     (88_172_645_463_325_252, 1_181_783_497_276_652_981, 7_046_029_254_386_353_131, 3_935_559_000_370_003_845);
   Inside : array (1 .. 4) of Natural := (others => 0);

   procedure Step (S : in out Word) with Nonblocking is
   begin
      S := S xor S * 2 ** 13;
      S := S xor S / 2 ** 7;
      S := S xor S * 2 ** 17;
   end Step;

   function Hits (Seed : Word) return Natural with Nonblocking is
      S : Word := Seed;
      X, Y : Integer;
      Count : Natural := 0;
   begin
      for I in 1 .. Throws loop
         Step (S);
         X := Integer (S mod Side);
         Step (S);
         Y := Integer (S mod Side);
         if X * X + Y * Y < Side * Side then
            Count := Count + 1;
         end if;
      end loop;
      return Count;
   end Hits;

begin
   parallel for I in Seeds'Range loop
      Inside (I) := Hits (Seeds (I));
   end loop;
   for Count of Inside loop
      Put_Line ("inside:" & Integer'Image (Count));
   end loop;
   Put_Line ("a thousand times pi is about" & Integer'Image (Inside'Parallel_Reduce ("+", 0)));
end Main;
