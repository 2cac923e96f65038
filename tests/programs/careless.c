// Copies its input to its output and looks at nothing that the C library returns: the program by which programs.py shows
// that its sweeps find a program which does not say what it was refused.
#include <stdlib.h>
#include <string.h>
#include <unistd.h>

int main(void) {
  char given[64] = {0};
  ssize_t length = read(0, given, sizeof given);
  char *copy = malloc(sizeof given);
  if (copy) memcpy(copy, given, sizeof given);
  if (copy && length > 0 && write(1, copy, (size_t)length) < 0) return 0;
  free(copy);
  return 0;
}
