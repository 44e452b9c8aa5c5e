#include <string.h>

#include "greet/greet.h"

int main(void) {
  char line[80];
  greet(line, sizeof line, "you");
  return strcmp(line, "Hello, you!") != 0;
}
