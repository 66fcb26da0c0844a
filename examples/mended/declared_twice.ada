-- Each declaration of a region has a name of its own.
procedure Main is
   Count : Integer := 0;
   Counted : Boolean := True;
begin
   null;
end Main;
