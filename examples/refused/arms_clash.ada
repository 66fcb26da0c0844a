-- Two arms of a block write one variable (9.10.1).
pragma Conflict_Check_Policy (Known_Parallel_Conflict_Checks);
procedure Main is
   X : Integer := 0;
begin
   parallel do
      X := 1;
   and
      X := 2;
   end do;
end Main;
