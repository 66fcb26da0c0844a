-- A second declaration of a name in one region. The case of letters makes no difference.
procedure Main is
   Count : Integer := 0;
   COUNT : Boolean := True;
begin
   null;
end Main;
