--  Words of given lengths are set into lines of twenty columns, with a space between two words.
with Ada.Text_IO, Ada.Integer_Text_IO;
use Ada.Text_IO, Ada.Integer_Text_IO;
procedure Main is
   Columns : constant := 20;
   subtype Length is Positive range 1 .. Columns;
   Words : constant array (1 .. 12) of Length := (3, 5, 8, 2, 10, 4, 7, 6, 1, 9, 20, 5);

   Line : Positive := 1;
   Count, Used : Natural := 0;
   Longest, Letters : Natural := 0;

   procedure End_Line is
   begin
      Put ("line");
      Put (Line, Width => 2);
      Put (": words");
      Put (Count, Width => 2);
      Put (", columns");
      Put (Used, Width => 3);
      New_Line;
      Line := Line + 1;
      Count := 0;
      Used := 0;
   end End_Line;

begin
   for Word of Words loop
      if Count > 0 and then Used + 1 + Word > Columns then
         End_Line;
      end if;
      Used := (if Count = 0 then Word else Used + 1 + Word);
      Count := Count + 1;
      Longest := Integer'Max (Longest, Word);
      Letters := Letters + Word;
   end loop;
   End_Line;
   Put_Line ("letters:" & Integer'Image (Letters) & ", longest word:" & Integer'Image (Longest));
end Main;
