-- All objects have 4,194,304 cells or fewer together.
procedure Main is
   A : array (1 .. 2_048, 1 .. 2_047) of Integer;
   X : Integer;
begin
   null;
end Main;
