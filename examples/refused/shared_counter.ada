-- Threads of a loop add to one variable; a reduction gives each an accumulator of its own (9.10.1).
procedure Main is
   Row : array (1 .. 4) of Integer := (others => 1);
   Sum : Integer := 0;
begin
   parallel for I in Row'Range loop
      Sum := Sum + Row (I);
   end loop;
end Main;
