/* A heap for tests, in place of heap.c: it refuses a request, and checks that the library asks for memory and gives it back as
 * include/relkvanu_alloc.h says. It counts in static variables, so it is for one thread. */
#ifndef RELKVANU_REFUSING_HEAP_H
#define RELKVANU_REFUSING_HEAP_H

#include <stdint.h>

/* Refuses the n-th request for memory from now on, once. Refuses none if n is 0. */
void heap_refuse(uint64_t nth);

/* Refuses the n-th request and all later ones, until the next call of either function: a list that is refused room to spare may ask for
 * less. */
void heap_refuse_from(uint64_t nth);

/* How often memory was asked for since then. */
uint64_t heap_requests(void);

#endif
