-- A value that two choices take: blamed at the second.
procedure Main is
   X : Integer := 3;
begin
   case X is
      when 1 .. 5 => X := 0;
      when 5 .. 9 => X := 1;
      when others => null;
   end case;
end Main;
