with Ada.Text_IO; use Ada.Text_IO;
procedure Search is
   Prime : constant := 40_009;
   Sum : Integer := 0;

   function Root (Square : Natural) return Natural is
   begin
      for I in 1 .. (Prime - 1) / 2 loop
         if I * I mod Prime = Square then
            return I;
         end if;
      end loop;
      return 0;
   end Root;

begin
   for I in 1 .. 200 loop
      Sum := Sum + Root ((I * 997 mod Prime) * (I * 997 mod Prime) mod Prime);
   end loop;
   Put_Line (Integer'Image (Sum));
end Search;
