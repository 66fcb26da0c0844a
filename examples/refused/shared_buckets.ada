-- Threads count in one row of buckets; a row for each chunk keeps them apart (9.10.1).
procedure Main is
   Data : constant array (1 .. 6) of Integer := (1, 2, 2, 3, 1, 2);
   Counts : array (1 .. 3) of Natural := (others => 0);
begin
   parallel (2) for I in Data'Range loop
      Counts (Data (I)) := @ + 1;
   end loop;
end Main;
