-- A function whose result is no scalar.
procedure Main is
   type Row is array (1 .. 3) of Integer;
   function Zeros return Row is
   begin
      return (0, 0, 0);
   end Zeros;
begin
   null;
end Main;
