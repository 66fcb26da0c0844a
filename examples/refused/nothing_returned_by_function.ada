-- A return without a value in a function.
procedure Main is
   function Next (N : Integer) return Integer is
   begin
      if N > 0 then
         return;
      end if;
      return N + 1;
   end Next;
begin
   null;
end Main;
