--  A counter that serves one customer each minute, with room for four who wait.
with Ada.Text_IO; use Ada.Text_IO;
procedure Main is
   Room : constant := 4;
   Arrivals : constant array (1 .. 9) of Natural := (2, 0, 3, 3, 0, 0, 0, 0, 1);
   Full, Empty : exception;

   Line : array (0 .. Room - 1) of Natural;
   First : Natural := 0;
   Waiting : Natural := 0;

   procedure Enter (Ticket : Positive) is
   begin
      if Waiting = Room then
         raise Full;
      end if;
      Line ((First + Waiting) mod Room) := Ticket;
      Waiting := Waiting + 1;
   end Enter;

   procedure Leave (Ticket : out Positive) is
   begin
      if Waiting = 0 then
         raise Empty;
      end if;
      Ticket := Line (First);
      First := (First + 1) mod Room;
      Waiting := Waiting - 1;
   end Leave;

   Tickets : Natural := 0;
   Next : Positive;
begin
   for Minute in Arrivals'Range loop
      for Customer in 1 .. Arrivals (Minute) loop
         Tickets := Tickets + 1;
         begin
            Enter (Tickets);
         exception
            when Full =>
               Put_Line ("minute" & Integer'Image (Minute) & ": no room for" & Integer'Image (Tickets));
         end;
      end loop;
      begin
         Leave (Next);
         Put_Line
           ("minute" & Integer'Image (Minute) & ": serves" & Integer'Image (Next) & "," &
            Integer'Image (Waiting) & " waiting");
      exception
         when Empty =>
            Put_Line ("minute" & Integer'Image (Minute) & ": nobody is there");
      end;
   end loop;
end Main;
