-- A bound outside the subtype that is named.
procedure Main is
   subtype Small is Positive range 0 .. 9;
begin
   null;
end Main;
