-- Each thread writes a column of another matrix.
procedure Main is
   A, B : array (1 .. 3, 1 .. 3) of Integer := (others => (others => 0));
begin
   parallel for I in 1 .. 3 loop
      for J in 1 .. 3 loop
         B (J, I) := A (I, J);
      end loop;
   end loop;
end Main;
