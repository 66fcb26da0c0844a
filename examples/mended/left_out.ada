-- Work side by side is written as a parallel block, and not as tasks.
procedure Main is
begin
   parallel do
      null;
   and
      null;
   end do;
end Main;
