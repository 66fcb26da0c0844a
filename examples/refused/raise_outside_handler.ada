-- A raise without a name outside a handler.
procedure Main is
begin
   raise;
end Main;
