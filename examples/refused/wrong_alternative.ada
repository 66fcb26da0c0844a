-- The values of a conditional expression are of two types.
procedure Main is
   X : Integer := 3;
begin
   X := (if X > 2 then X else False);
end Main;
