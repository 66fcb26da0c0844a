-- A parallel reduction whose accumulator and value have two types.
procedure Main is
   function Seen (Before : Boolean; N : Integer) return Boolean is (Before or N > 3)
     with Nonblocking;
   Found : Boolean;
begin
   Found := [for I in 1 .. 10 => I]'Reduce (Seen, False);
   Found := [parallel for I in 1 .. 10 => I]'Reduce (Seen, False);
end Main;
