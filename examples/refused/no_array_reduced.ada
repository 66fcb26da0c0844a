-- Reduce of what is no array object: a type is none.
procedure Main is
   type Row is array (1 .. 3) of Integer;
   X : Integer;
begin
   X := Row'Reduce ("+", 0);
end Main;
