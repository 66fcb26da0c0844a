-- Both operands are Integers.
procedure Main is
   X : Integer := 2;
   Done : Boolean := False;
begin
   X := X + (if Done then 1 else 0);
end Main;
