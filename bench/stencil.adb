with Ada.Text_IO; use Ada.Text_IO;
procedure Stencil is
   type Rod is array (0 .. 10_001) of Integer;
   Old : Rod;
   Next : Rod := (others => 0);
   Sum : Integer := 0;
begin
   for I in Old'Range loop
      Old (I) := I * 7919 mod 10_007;
   end loop;
   for Step in 1 .. 100 loop
      for I in 0 .. 9_999 loop
         Next (I + 1) := (Old (I) + Old (I + 1) + Old (I + 2)) / 3;
      end loop;
      Old := Next;
   end loop;
   for Heat of Old loop
      Sum := Sum + Heat;
   end loop;
   Put_Line (Integer'Image (Sum));
end Stencil;
