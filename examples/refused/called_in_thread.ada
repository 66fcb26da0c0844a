-- A call touches what its body touches of the main procedure's variables (9.10.1).
procedure Main is
   Count : Natural := 0;
   procedure Step with Nonblocking is
   begin
      Count := @ + 1;
   end Step;
begin
   parallel for I in 1 .. 4 loop
      Step;
   end loop;
end Main;
