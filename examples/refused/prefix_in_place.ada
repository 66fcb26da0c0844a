-- Each sum needs the one before, which another thread writes (9.10.1).
pragma Conflict_Check_Policy (Known_Parallel_Conflict_Checks);
procedure Main is
   A : array (1 .. 8) of Integer := (others => 1);
begin
   parallel for I in 2 .. 8 loop
      A (I) := A (I - 1) + A (I);
   end loop;
end Main;
