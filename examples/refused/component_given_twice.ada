-- A component given twice.
procedure Main is
   type Point is record
      X, Y : Integer;
   end record;
   P : Point := (X => 1, Y => 2, X => 3);
begin
   null;
end Main;
