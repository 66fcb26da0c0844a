-- A loop with a name at its beginning alone.
procedure Main is
begin
   Rows : for I in 1 .. 3 loop
      null;
   end loop;
end Main;
