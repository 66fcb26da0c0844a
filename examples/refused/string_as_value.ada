-- A string elsewhere than in Put or Put_Line.
procedure Main is
   X : Integer := "three";
begin
   null;
end Main;
