--  Reads a number and then operations on it, each with a number behind it: 1 adds, 2 subtracts, 3 multiplies and
--  4 divides. For example, the input 12 1 30 4 5 puts the results 42 and 8.
with Ada.Text_IO, Ada.Integer_Text_IO;
use Ada.Text_IO, Ada.Integer_Text_IO;
procedure Main is
   Value : Integer := 0;
   Operation, Operand : Integer;
   No_Operation : exception;

   function Result return Integer is
   begin
      case Operation is
         when 1 => return Value + Operand;
         when 2 => return Value - Operand;
         when 3 => return Value * Operand;
         when 4 => return Value / Operand;
         when others => raise No_Operation;
      end case;
   end Result;

begin
   Get (Value);
   loop
      Get (Operation);
      Get (Operand);
      begin
         Value := Result;
         Put_Line (Value'Image);
      exception
         when Constraint_Error => Put_Line (" no result");
         when No_Operation => Put_Line (" no operation" & Operation'Image);
      end;
   end loop;
exception
   when End_Error =>
      Put ("in the end ");
      Put (Value, Width => 1);
      New_Line;
   when Data_Error =>
      Put_Line ("that is no number");
end Main;
