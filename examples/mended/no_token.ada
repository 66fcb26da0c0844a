-- A number has no exponent below 0.
procedure Main is
   X : Integer := 2;
begin
   X := 1E3;
end Main;
