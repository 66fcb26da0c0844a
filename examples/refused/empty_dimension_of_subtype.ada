-- A dimension without a value, whose bound lies outside its subtype too: blamed at its range.
procedure Main is
   A : array (Natural range 0 .. -1) of Integer;
begin
   null;
end Main;
