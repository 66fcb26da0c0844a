-- A name as a range that is no range and no scalar subtype.
procedure Main is
   X : Integer := 3;
begin
   for I in X loop
      null;
   end loop;
end Main;
