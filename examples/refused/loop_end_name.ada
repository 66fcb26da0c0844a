-- The name after end loop differs.
procedure Main is
begin
   Rows : for I in 1 .. 3 loop
      null;
   end loop Columns;
end Main;
