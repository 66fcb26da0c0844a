-- A name used inside its own declaration.
procedure Main is
   N : Integer := 1;
begin
   declare
      N : Integer := N + 1;
   begin
      N := 2;
   end;
end Main;
