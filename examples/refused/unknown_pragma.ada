-- A pragma other than Conflict_Check_Policy.
pragma Optimize (Time);
procedure Main is
begin
   null;
end Main;
