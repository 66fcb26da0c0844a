--  Accounts that grow by their rates, each in a thread of its own, and the money in all of them.
with Ada.Text_IO; use Ada.Text_IO;
procedure Main is
   type Account is record
      Balance : Integer;
      Rate : Integer;
   end record;
   type Accounts is array (1 .. 4) of Account;
   Bank : Accounts := ((1000, 5), (2000, 10), (500, 0), (40, 50));
   Total : Integer := 0;
begin
   parallel for A of Bank loop
      A.Balance := @ + @ * A.Rate / 100;
   end loop;
   Total := [parallel for A of Bank => A.Balance]'Reduce ("+", 0);
   for A of Bank loop
      Put_Line (Integer'Image (A.Balance));
   end loop;
   Put_Line ("total:" & Integer'Image (Total));
end Main;
