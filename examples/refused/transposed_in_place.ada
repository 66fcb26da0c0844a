-- A matrix is transposed in place: one thread reads what another writes (9.10.1).
procedure Main is
   A : array (1 .. 3, 1 .. 3) of Integer := (others => (others => 0));
begin
   parallel for I in 1 .. 3 loop
      for J in 1 .. 3 loop
         A (I, J) := A (J, I);
      end loop;
   end loop;
end Main;
