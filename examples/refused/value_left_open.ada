-- A value that no choice takes: blamed at the word case.
procedure Main is
   subtype Digit is Integer range 0 .. 9;
   X : Digit := 3;
begin
   case X is
      when 0 => null;
      when 2 .. 9 => X := 0;
   end case;
end Main;
