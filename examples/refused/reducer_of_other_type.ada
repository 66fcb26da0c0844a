-- Values that the reducer doesn't take.
procedure Main is
   Found : Boolean;
begin
   Found := [for I in 1 .. 10 => I]'Reduce ("or", False);
end Main;
