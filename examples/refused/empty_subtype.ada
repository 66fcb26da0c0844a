-- The range of a subtype has no value.
procedure Main is
   subtype Nothing is Integer range 10 .. 1;
begin
   null;
end Main;
