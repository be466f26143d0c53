/* Time, stack and marks between measurements. */
#ifndef MEASURE_H
#define MEASURE_H

#include <stddef.h>
#include <stdint.h>

/* Ends the program. */
void give_up(const char *what);

/* Time of the processor spent so far, in nanoseconds. */
double now(void);

double lower(double a, double b);
size_t larger(size_t a, size_t b);

/* Does nothing: callgrind writes down its counts where this is called. */
void mark(void);

/* Says about where a call's own stack begins: called by what stack_of runs,
   with the address of a variable of its own, just before the call. */
void stack_begins(const volatile uint8_t *here);

/* Bytes of stack below there that a call has written to, on a thread's
   painted stack. */
size_t stack_of(void (*call)(void));

#endif
