-- An assignment to a loop's parameter.
procedure Main is
begin
   for I in 1 .. 3 loop
      I := 2;
   end loop;
end Main;
