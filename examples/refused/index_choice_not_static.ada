-- The choice of an aggregate that isn't static.
procedure Main is
   N : Integer := 2;
   A : array (1 .. 3) of Integer := (N => 1, others => 0);
begin
   null;
end Main;
