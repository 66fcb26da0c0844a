-- The name of a component, used within its record.
procedure Main is
   type Buffer is record
      Size : Integer;
      Used : Integer range 0 .. Size;
   end record;
begin
   null;
end Main;
