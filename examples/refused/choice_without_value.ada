-- A range without a value beside another choice: blamed at the aggregate's bracket.
procedure Main is
   A : array (1 .. 3) of Integer := (1 .. 3 => 0, 5 .. 4 => 1);
begin
   null;
end Main;
