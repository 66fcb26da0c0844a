-- The bound of a subtype that isn't static: Max isn't.
procedure Main is
   subtype Small is Integer range 0 .. Integer'Max (3, 4);
begin
   null;
end Main;
