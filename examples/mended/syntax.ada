-- Each statement ends with a semicolon.
procedure Main is
   X : Integer := 2;
begin
   X := X + 3;
end Main;
