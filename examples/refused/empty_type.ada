-- The range of a type has no value.
procedure Main is
   type Nothing is range 10 .. 1;
begin
   null;
end Main;
