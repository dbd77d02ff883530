/* sleepers.c over a mutex and a condition variable, which the event count uses where there is no futex. */
#define SYNTH_EVENT_PTHREAD
#include "sleepers.c"
