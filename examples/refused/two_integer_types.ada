-- Operands of two integer types, without a conversion.
procedure Main is
   type Metres is range 0 .. 1_000;
   Count : Integer := 2;
   Length : Metres := 3;
begin
   Length := Length + Metres (Count);
   Length := Length * Count;
end Main;
