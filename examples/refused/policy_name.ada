-- A policy that this language doesn't have.
pragma Conflict_Check_Policy (No_Parallel_Conflict_Checks);
procedure Main is
begin
   null;
end Main;
