-- The bound of an array outside its index subtype.
procedure Main is
   A : array (Positive range 0 .. 9) of Integer;
begin
   null;
end Main;
