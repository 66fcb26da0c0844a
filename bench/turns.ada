with Ada.Text_IO; use Ada.Text_IO;
procedure Main is
   S : Integer := 0;
   T : Integer := 0;
begin
   for I in 1 .. 1_000 loop
      for J in 1 .. 1_000 loop
         S := (S * 3 + J) mod 1009;
         if J mod 2 = 0 then
            T := T + 1;
         end if;
      end loop;
   end loop;
   Put_Line (Integer'Image (S) & Integer'Image (T));
end Main;
