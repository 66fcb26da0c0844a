-- A component that the record doesn't have.
procedure Main is
   type Point is record
      X, Y : Integer;
   end record;
   P : Point;
begin
   P.X := 1;
   P.Z := 2;
end Main;
