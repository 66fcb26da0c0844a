-- A statement that is no call of a procedure.
procedure Main is
   X : Integer := 3;
begin
   X;
end Main;
