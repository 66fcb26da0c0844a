-- An assigned value of another type.
procedure Main is
   X : Integer;
begin
   X := True;
end Main;
