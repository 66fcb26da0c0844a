-- An aggregate that leaves a component open: blamed at its bracket.
procedure Main is
   A : array (1 .. 3) of Integer := (1, 2);
begin
   null;
end Main;
