#include "greet.h"

int main(void) {
  return greet("world") ? 0 : 1;
}
