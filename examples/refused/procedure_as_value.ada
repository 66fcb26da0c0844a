-- A procedure in an expression.
procedure Main is
   procedure Step is
   begin
      null;
   end Step;
   X : Integer;
begin
   X := Step;
end Main;
