--  Numbers are sorted, and looked up by halving.
with Ada.Text_IO, Ada.Integer_Text_IO;
use Ada.Text_IO, Ada.Integer_Text_IO;
procedure Main is
   type List is array (1 .. 8) of Integer;
   Numbers : List := (42, -7, 19, 0, 8, 42, 3, -15);

   procedure Show (L : List) is
   begin
      for Number of L loop
         Put (Number, Width => 5);
      end loop;
      New_Line;
   end Show;

   procedure Sort (L : in out List) is
   begin
      for I in 2 .. L'Last loop
         declare
            Item : constant Integer := L (I);
            Place : Natural := I;
         begin
            while Place > 1 and then L (Place - 1) > Item loop
               L (Place) := L (Place - 1);
               Place := Place - 1;
            end loop;
            L (Place) := Item;
         end;
      end loop;
   end Sort;

   --  The place of an item in a sorted list, or 0.
   function Place_Of (Item : Integer; L : List) return Natural is
      Low : Integer := L'First;
      High : Integer := L'Last;
   begin
      while Low <= High loop
         declare
            Middle : constant Integer := (Low + High) / 2;
         begin
            if L (Middle) = Item then
               return Middle;
            elsif L (Middle) < Item then
               Low := Middle + 1;
            else
               High := Middle - 1;
            end if;
         end;
      end loop;
      return 0;
   end Place_Of;

begin
   Show (Numbers);
   Sort (Numbers);
   Show (Numbers);
   for Item in 18 .. 19 loop
      if Place_Of (Item, Numbers) = 0 then
         Put_Line (Integer'Image (Item) & " isn't there");
      else
         Put_Line (Integer'Image (Item) & " is number" & Integer'Image (Place_Of (Item, Numbers)));
      end if;
   end loop;
end Main;
