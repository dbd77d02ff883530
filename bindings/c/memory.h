/*
 * Memory that a test refuses. The linker's `--wrap` puts these in the place of `malloc`, `calloc`, `realloc` and
 * `free`, for the library as for the test; the program has one thread. More than a gibibyte is never given.
 */
#ifndef MEMORY_H
#define MEMORY_H
#include <stddef.h>

#ifdef __cplusplus
extern "C" {
#endif

/* Refuses the allocation of this number from now on, the first is 1; 0 refuses none. */
void memory_refuse(unsigned long number);

/* How often memory was asked for since the last `memory_refuse`. */
unsigned long memory_asked(void);

/* How many blocks are taken and not given back, at most 256, and how many bytes were asked for of all of them. */
long memory_taken(void);
size_t memory_bytes(void);

/* The most bytes that were taken at once since the last `memory_refuse`. */
size_t memory_peak(void);

#ifdef __cplusplus
}
#endif
#endif
