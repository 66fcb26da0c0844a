-- An operand of another type: blamed at the operator.
procedure Main is
   X : Integer := 2;
   Done : Boolean := False;
begin
   X := X + Done;
end Main;
