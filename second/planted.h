/* Planted faults for trying the tests: built with -DPLANTED=k, the fault for
   number k stands in place of the right expression; without it nothing of a
   fault is left in the code. */
#ifndef PLANTED_H
#define PLANTED_H

#ifdef PLANTED
#define FAULT(number, wrong, right) (PLANTED == (number) ? (wrong) : (right))
#else
#define FAULT(number, wrong, right) (right)
#endif

#endif
