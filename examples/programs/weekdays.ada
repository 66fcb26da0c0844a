--  The weekday of a date, and the number of its day in the year.
with Ada.Text_IO, Ada.Integer_Text_IO;
use Ada.Text_IO, Ada.Integer_Text_IO;
procedure Main is
   function Is_Leap (Year : Positive) return Boolean is
     (Year mod 4 = 0 and (Year mod 100 /= 0 or Year mod 400 = 0));

   function Days_In (Year, Month : Positive) return Positive is
   begin
      case Month is
         when 2 => return (if Is_Leap (Year) then 29 else 28);
         when 4 | 6 | 9 | 11 => return 30;
         when 1 | 3 | 5 | 7 .. 8 | 10 | 12 => return 31;
         when others => raise Constraint_Error;
      end case;
   end Days_In;

   procedure Put_Weekday (Number : Natural) is
   begin
      case Number mod 7 is
         when 1 => Put ("Monday");
         when 2 => Put ("Tuesday");
         when 3 => Put ("Wednesday");
         when 4 => Put ("Thursday");
         when 5 => Put ("Friday");
         when 6 => Put ("Saturday");
         when others => Put ("Sunday");
      end case;
   end Put_Weekday;

   procedure Show (Year, Month, Day : Positive) is
      Past : constant Natural := Year - 1;
      In_Year : Natural := Day;
   begin
      Put (Day, Width => 2);
      Put (".");
      Put (Month, Width => 2);
      Put (".");
      Put (Year, Width => 4);
      Put (": ");
      if Day > Days_In (Year, Month) then
         Put_Line ("no such day");
         return;
      end if;
      for M in 1 .. Month - 1 loop
         In_Year := In_Year + Days_In (Year, M);
      end loop;
      --  The first day of the year 1 was a Monday.
      Put_Weekday (365 * Past + Past / 4 - Past / 100 + Past / 400 + In_Year);
      Put_Line
        (", day" & Integer'Image (In_Year) & " of" &
         Integer'Image ((if Is_Leap (Year) then 366 else 365)));
   exception
      when Constraint_Error => Put_Line ("no such month");
   end Show;

begin
   Show (2024, 2, 29);
   Show (2000, 1, 1);
   Show (1969, 7, 20);
   Show (2023, 2, 29);
   Show (2024, 13, 1);
end Main;
