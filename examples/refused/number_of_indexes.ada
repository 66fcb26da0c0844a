-- Too few indexes: blamed at the bracket.
procedure Main is
   Board : array (1 .. 8, 1 .. 8) of Boolean;
begin
   Board (1) := True;
end Main;
