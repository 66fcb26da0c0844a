-- An aggregate where no type is asked: arrays aren't compared.
procedure Main is
   A : array (1 .. 3) of Integer := (1, 2, 3);
begin
   if A = (1, 2, 3) then
      null;
   end if;
end Main;
