#ifndef GREET_H_
#define GREET_H_

/* Prints a greeting on a line of its own, and answers whether that went well. */
int greet(const char *name);

#endif
