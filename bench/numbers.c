/* A call of the system for each number, as a program without a buffer makes: each line has eight bytes. */
#include <stdio.h>
#include <stdlib.h>
#include <unistd.h>

int main(void) {
  char line[9] = {0};
  int sum = 0;
  while (read(0, line, 8) == 8) sum = (sum + atoi(line)) % 1000003;
  printf(" %d\n", sum);
  return 0;
}
