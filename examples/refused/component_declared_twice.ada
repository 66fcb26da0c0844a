-- Two components of one name.
procedure Main is
   type Point is record
      X : Integer;
      Y, X : Integer;
   end record;
begin
   null;
end Main;
