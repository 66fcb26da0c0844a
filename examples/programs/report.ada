--  The stock of a shop: pieces, prices and values, and the sum of the values.
with Ada.Text_IO, Ada.Integer_Text_IO;
use Ada.Text_IO, Ada.Integer_Text_IO;
procedure Main is
   type Article is record
      Number, Pieces, Cents : Natural;
   end record;

   Stock : constant array (1 .. 4) of Article :=
     ((101, 12, 250), (102, 3, 1_999), (205, 40, 35), (310, 0, 720));
   Sum : Natural := 0;

   procedure Put_Money (Cents : Natural) is
   begin
      Put (Cents / 100, Width => 8);
      Put (".");
      if Cents mod 100 < 10 then
         Put ("0");
      end if;
      Put (Cents mod 100, Width => 1);
   end Put_Money;

begin
   Put_Line ("  No  Pieces      Price      Value");
   for Item of Stock loop
      Put (Item.Number, Width => 4);
      Put (Item.Pieces, Width => 8);
      Put_Money (Item.Cents);
      Put_Money (Item.Pieces * Item.Cents);
      New_Line;
      if Item.Pieces = 0 then
         Put_Line ("      sold out");
      end if;
      Sum := Sum + Item.Pieces * Item.Cents;
   end loop;
   Put ("Sum                    ");
   Put_Money (Sum);
   New_Line;
end Main;
