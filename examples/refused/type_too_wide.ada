-- The range of a type goes beyond 64 bits.
procedure Main is
   type Huge is range 0 .. 2 ** 63;
begin
   null;
end Main;
