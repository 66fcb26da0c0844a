-- An aggregate that gives a component twice: blamed at its bracket.
procedure Main is
   A : array (1 .. 3) of Integer := (1 .. 2 => 0, 2 .. 3 => 1);
begin
   null;
end Main;
