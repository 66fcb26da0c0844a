-- Threads have no order to be turned: the index is.
procedure Main is
   A : array (1 .. 10) of Integer;
   B : constant array (1 .. 10) of Integer := (others => 7);
begin
   parallel for I in 1 .. 10 loop
      A (I) := B (11 - I);
   end loop;
end Main;
