-- A component of what is no record: blamed at the name's first token.
procedure Main is
   X : Integer;
begin
   X.Low := 1;
end Main;
