-- A return with a value in a procedure.
procedure Main is
   procedure Step is
   begin
      return 3;
   end Step;
begin
   Step;
end Main;
