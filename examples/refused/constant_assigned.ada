-- An assignment to a constant.
procedure Main is
   Limit : constant Integer := 10;
begin
   Limit := 11;
end Main;
