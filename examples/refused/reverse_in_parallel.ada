-- A parallel loop backwards.
procedure Main is
begin
   parallel for I in reverse 1 .. 10 loop
      null;
   end loop;
end Main;
