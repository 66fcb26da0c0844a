-- The objects have more than 4,194,304 cells.
procedure Main is
   A : array (1 .. 2_048, 1 .. 2_048) of Integer;
   X : Integer;
begin
   null;
end Main;
