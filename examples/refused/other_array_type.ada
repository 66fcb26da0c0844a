-- Two arrays that look alike: each anonymous array has a type of its own.
procedure Main is
   A : array (1 .. 3) of Integer;
   B : array (1 .. 3) of Integer;
begin
   A := (1, 2, 3);
   B := A;
end Main;
