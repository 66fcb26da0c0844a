-- A type of one's own has 64 bits.
procedure Main is
   type Long is range 0 .. 10_000_000_000;
   X : Long;
begin
   X := 2_147_483_647 + 1;
end Main;
