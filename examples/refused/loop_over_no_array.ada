-- A loop over the components of what is no array object.
procedure Main is
   type Row is array (1 .. 3) of Integer;
begin
   for X of Row loop
      null;
   end loop;
end Main;
