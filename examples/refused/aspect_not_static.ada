-- The value of the aspect Nonblocking that is neither True nor False.
procedure Main is
   Quiet : constant Boolean := True;
   procedure Step with Nonblocking => Quiet is
   begin
      null;
   end Step;
begin
   Step;
end Main;
