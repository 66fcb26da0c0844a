-- A constant without a value: blamed at its name.
procedure Main is
   Limit : constant Integer;
begin
   null;
end Main;
