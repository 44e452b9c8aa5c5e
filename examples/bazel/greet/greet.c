#include "greet/greet.h"

#include <stdio.h>

int greet(char *to, int room, const char *name) {
  return snprintf(to, room, "Hello, %s!", name);
}
