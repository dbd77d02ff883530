/* Makes thread elements with a mark of their own: see mark.h. */
#include "mark.h"
#include "synthesis/raw.h"

int32_t synth_raw_hand_new_marked(uint32_t first, uint64_t mark, struct synth_hand *hand);

int32_t synth_raw_hand_new(uint32_t first, struct synth_hand *hand)
{
    return synth_raw_hand_new_marked(first, synth_next_mark(), hand);
}
