with Ada.Text_IO; use Ada.Text_IO;
procedure Calls is
   S : Integer := 0;
   function Add (X, Y : Integer) return Integer is
   begin
      return (X + Y) mod 1_000_003;
   end Add;
begin
   for I in 1 .. 1_000_000 loop
      S := Add (S, I);
   end loop;
   Put_Line (Integer'Image (S));
end Calls;
