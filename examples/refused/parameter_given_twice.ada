-- A parameter given by position and by name.
procedure Main is
   procedure Move (X, Y : Integer) is
   begin
      null;
   end Move;
begin
   Move (1, X => 2);
end Main;
