-- An index of what is no array: blamed at the name's first token.
procedure Main is
   X : Integer;
begin
   X (1) := 2;
end Main;
