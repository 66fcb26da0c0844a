-- A named number that isn't static.
procedure Main is
   X : Integer := 2;
   Limit : constant := X + 1;
begin
   null;
end Main;
