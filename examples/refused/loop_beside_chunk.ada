-- One index is the loop's parameter and the other the chunk's, so two threads may mean one component (9.10.1).
procedure Main is
   Row : array (1 .. 4) of Integer := (others => 0);
begin
   parallel (C in 1 .. 4) for I in Row'Range loop
      Row (I) := Row (C);
   end loop;
end Main;
