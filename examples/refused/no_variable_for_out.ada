-- An actual parameter of mode out that is no variable.
procedure Main is
   procedure Read (N : out Integer) is
   begin
      N := 7;
   end Read;
   X : Integer := 1;
begin
   Read (X);
   Read (X + 1);
end Main;
