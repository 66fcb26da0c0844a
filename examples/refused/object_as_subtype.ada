-- Another name where a subtype is asked.
procedure Main is
   A : Integer := 1;
   B : A;
begin
   null;
end Main;
