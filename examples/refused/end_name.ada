-- The name after end differs.
procedure Main is
   procedure Step is
   begin
      null;
   end Stop;
begin
   Step;
end Main;
