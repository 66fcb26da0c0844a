-- A positional argument after a named one.
procedure Main is
   procedure Move (X, Y : Integer) is
   begin
      null;
   end Move;
begin
   Move (X => 1, 2);
end Main;
