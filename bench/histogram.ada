--  How often each of 64 values stands among 200,000, five times: each chunk counts in a row of its own.
with Ada.Text_IO; use Ada.Text_IO;
procedure Main is
   Chunks : constant := 8;
   Data : constant array (1 .. 200_000) of Integer := [for I in 1 .. 200_000 => (I mod 1009) * (I mod 1013) mod 64];
   Counts : array (1 .. Chunks, 0 .. 63) of Natural := (others => (others => 0));
begin
   for Round in 1 .. 5 loop
      parallel (C in 1 .. Chunks) for I in Data'Range loop
         Counts (C, Data (I)) := @ + 1;
      end loop;
   end loop;
   for Value in 0 .. 63 loop
      Put_Line (Integer'Image ([for C in 1 .. Chunks => Counts (C, Value)]'Reduce ("+", 0)));
   end loop;
end Main;
