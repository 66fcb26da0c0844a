-- A static value that no Integer has.
procedure Main is
   X : Integer;
begin
   X := 2_147_483_647 + 1;
end Main;
