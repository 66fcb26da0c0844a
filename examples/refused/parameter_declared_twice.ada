-- Two formal parameters of one name.
procedure Main is
   procedure Move (X : Integer; X : Integer) is
   begin
      null;
   end Move;
begin
   null;
end Main;
