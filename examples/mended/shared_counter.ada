-- A reduction gives each thread an accumulator of its own.
procedure Main is
   Row : array (1 .. 4) of Integer := (others => 1);
   Sum : Integer := 0;
begin
   Sum := [parallel for I in Row'Range => Row (I)]'Reduce ("+", 0);
end Main;
