-- Each thread reads its neighbours while they are written (9.10.1).
pragma Conflict_Check_Policy (Known_Parallel_Conflict_Checks);
procedure Main is
   Row : array (0 .. 5) of Integer := (others => 0);
begin
   parallel for I in 1 .. 4 loop
      Row (I) := (Row (I - 1) + Row (I + 1)) / 2;
   end loop;
end Main;
