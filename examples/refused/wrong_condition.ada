-- A condition that is no Boolean.
procedure Main is
   X : Integer := 2;
begin
   if X - 2 then
      X := 3;
   end if;
end Main;
