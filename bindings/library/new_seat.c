/* Makes meters with a mark of their own: see mark.h. */
#include "mark.h"
#include "synthesis/raw.h"

int32_t synth_raw_seat_new_marked(uint32_t clock, uint64_t mark, struct synth_seat *seat);

int32_t synth_raw_seat_new(uint32_t clock, struct synth_seat *seat)
{
    return synth_raw_seat_new_marked(clock, synth_next_mark(), seat);
}
