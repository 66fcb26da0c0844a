-- One of the three policies.
pragma Conflict_Check_Policy (All_Parallel_Conflict_Checks);
procedure Main is
begin
   null;
end Main;
