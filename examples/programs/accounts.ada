--  Payments between bank accounts: what can't be paid raises an exception and changes nothing.
with Ada.Text_IO; use Ada.Text_IO;
procedure Main is
   Balance : array (1 .. 3) of Natural := (100, 50, 0);
   Too_Little : exception;

   procedure Pay (From, To : Positive; Amount : Positive) is
   begin
      if Balance (From) < Amount then
         raise Too_Little;
      end if;
      Balance (To) := @ + Amount;
      Balance (From) := @ - Amount;
   end Pay;

   procedure Try (From, To, Amount : Integer) is
   begin
      Pay (From, To, Amount);
      Put_Line ("paid:" & Integer'Image (Amount));
   exception
      when Too_Little =>
         Put_Line ("not enough on account" & Integer'Image (From));
      when Constraint_Error =>
         Put_Line ("no such payment");
   end Try;

begin
   Try (From => 1, To => 2, Amount => 30);
   Try (From => 2, To => 3, Amount => 100);
   Try (From => 1, To => 4, Amount => 10);
   Try (3, 1, Amount => -5);
   Try (2, 3, 80);
   for I in Balance'Range loop
      Put_Line ("account" & Integer'Image (I) & ":" & Integer'Image (Balance (I)));
   end loop;
end Main;
