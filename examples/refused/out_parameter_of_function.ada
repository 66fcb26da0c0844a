-- A function with a parameter of mode in out: blamed at the mode.
procedure Main is
   function Next (N : in out Integer) return Integer is
   begin
      N := N + 1;
      return N;
   end Next;
begin
   null;
end Main;
