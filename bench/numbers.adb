with Ada.Text_IO, Ada.Integer_Text_IO;
use Ada.Text_IO, Ada.Integer_Text_IO;
procedure Numbers is
   Number : Integer;
   Sum : Integer := 0;
begin
   for I in 1 .. 1_000_000 loop
      Get (Number);
      Sum := (Sum + Number) mod 1_000_003;
   end loop;
   Put_Line (Integer'Image (Sum));
end Numbers;
