-- A static expression without a value.
procedure Main is
   X : Integer;
begin
   X := 7 / 0;
end Main;
