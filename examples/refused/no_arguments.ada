-- No arguments where some are needed: blamed at the name.
procedure Main is
   procedure Move (X, Y : Integer) is
   begin
      null;
   end Move;
begin
   Move;
end Main;
