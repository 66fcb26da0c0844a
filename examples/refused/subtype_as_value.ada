-- A subtype as a value.
procedure Main is
   X : Integer;
begin
   X := Positive;
end Main;
