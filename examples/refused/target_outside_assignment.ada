-- The target's name @ outside an assignment's expression.
procedure Main is
   X : Integer := 2;
begin
   X := @ + 1;
   if @ = 3 then
      X := 0;
   end if;
end Main;
