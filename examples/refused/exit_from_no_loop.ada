-- An exit whose name isn't that of a loop around it.
procedure Main is
begin
   Rows : for I in 1 .. 3 loop
      Columns : for J in 1 .. 3 loop
         exit Rows when J = 2;
      end loop Columns;
      exit Columns;
   end loop Rows;
end Main;
