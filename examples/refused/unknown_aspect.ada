-- An aspect other than Nonblocking.
procedure Main is
   procedure Step with Inline is
   begin
      null;
   end Step;
begin
   Step;
end Main;
