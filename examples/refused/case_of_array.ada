-- A selecting expression that is no scalar.
procedure Main is
   A : array (1 .. 2) of Integer;
begin
   case A is
      when others => null;
   end case;
end Main;
