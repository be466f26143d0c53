/* What the tests count and how they end. */
#ifndef CHECK_H
#define CHECK_H

/* Counts one comparison; says where it differed. */
void check(int same, const char *what, unsigned long input);

/* A count that must not stay below its floor. */
void check_floor(const char *what, unsigned long count, unsigned long floor);

/* How many comparisons were made so far. */
unsigned long check_count(void);

/* Prints comparisons made and failures; the test program's exit status. */
int check_end(const char *test);

/* The seed and the size of a test, from its arguments or the defaults; a
   third argument ends the test at its first difference. */
void check_arguments(int arguments, char **argument, unsigned long *seed,
                     unsigned long *size);

#endif
