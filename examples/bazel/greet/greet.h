#ifndef GREET_GREET_H_
#define GREET_GREET_H_

/* Writes a greeting of at most `room` bytes to `to`, and answers its length. */
int greet(char *to, int room, const char *name);

#endif
