-- An exit outside a loop.
procedure Main is
begin
   exit;
end Main;
