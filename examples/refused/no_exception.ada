-- A raise of what is no exception.
procedure Main is
   Failure : Integer := 3;
begin
   raise Failure;
end Main;
