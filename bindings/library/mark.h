/*
 * A part of the library that is not proved: each object that is made gets a number of its own, its mark, by which a
 * join knows handles of two objects. The proved code can't count what a whole process makes, since it has no
 * variables outside its objects.
 */
#ifndef MARK_H
#define MARK_H
#include <stdint.h>

/*
 * A number that no call gave before. This copy of the library counts its calls, from a number on that it makes of the
 * processor's clock and of an address in the copy, at the first call. So a copy that is unloaded, and loaded again at
 * the same address, begins after all that it gave before: the clock is faster than a count of calls. Copies at two
 * addresses begin anywhere in 2^63 numbers. That two, of which each made a million objects, have a mark in common has a
 * chance of one in four million millions. The marks don't come to an end: a process would have to live for centuries.
 */
uint64_t synth_next_mark(void);
#endif
