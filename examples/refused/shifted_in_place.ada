-- Thread I writes what thread I + 1 reads: the two indexes have different distances (9.10.1).
pragma Conflict_Check_Policy (Known_Parallel_Conflict_Checks);
procedure Main is
   A : array (1 .. 5) of Integer := (others => 0);
begin
   parallel for I in 1 .. 4 loop
      A (I + 1) := A (I);
   end loop;
end Main;
