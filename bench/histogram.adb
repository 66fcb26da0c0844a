with Ada.Text_IO; use Ada.Text_IO;
procedure Histogram is
   Data : array (1 .. 200_000) of Integer;
   Counts : array (0 .. 63) of Natural := (others => 0);
begin
   for I in Data'Range loop
      Data (I) := (I mod 1009) * (I mod 1013) mod 64;
   end loop;
   for Round in 1 .. 5 loop
      for I in Data'Range loop
         Counts (Data (I)) := @ + 1;
      end loop;
   end loop;
   for Value in 0 .. 63 loop
      Put_Line (Integer'Image (Counts (Value)));
   end loop;
end Histogram;
