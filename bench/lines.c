/* A call of the system for each line, as a program without a buffer makes. */
#include <stdio.h>
#include <unistd.h>

int main(void) {
  char line[16];
  for (int i = 1; i <= 1000000; i++)
    if (write(1, line, sprintf(line, " %d\n", i)) < 0) return 1;
  return 0;
}
