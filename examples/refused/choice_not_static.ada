-- The choice of a case statement that isn't static.
procedure Main is
   X : Integer := 1;
   Y : Integer := 2;
begin
   case X is
      when Y => null;
      when others => X := 0;
   end case;
end Main;
