-- An attribute that this language doesn't have.
procedure Main is
   Bits : Integer;
begin
   Bits := Integer'Size;
end Main;
