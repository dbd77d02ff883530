/* Makes a queue with a mark of its own: see mark.h. */
#include "mark.h"
#include "synthesis/raw.h"

int32_t synth_raw_queue_new_marked(uint32_t places, uint32_t first, uint64_t mark, struct synth_queue *queue);

int32_t synth_raw_queue_new(uint32_t places, uint32_t first, struct synth_queue *queue)
{
    return synth_raw_queue_new_marked(places, first, synth_next_mark(), queue);
}
