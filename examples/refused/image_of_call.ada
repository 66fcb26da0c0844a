-- The image of a function's call, which is no object here.
with Ada.Text_IO;
use Ada.Text_IO;
procedure Main is
   function Twice (N : Integer) return Integer is (2 * N);
begin
   Put_Line (Twice (3)'Image);
end Main;
