-- An attribute whose prefix isn't one of those that it has: blamed at the prefix.
procedure Main is
   X : Integer := 3;
   Low : Integer := X'First;
begin
   null;
end Main;
