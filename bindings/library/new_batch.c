/* Makes a batch queue with a mark of its own: see mark.h. */
#include "mark.h"
#include "synthesis/raw.h"

int32_t synth_raw_batch_new_marked(size_t places, uint64_t mark, struct synth_batch *batch);

int32_t synth_raw_batch_new(size_t places, struct synth_batch *batch)
{
    return synth_raw_batch_new_marked(places, synth_next_mark(), batch);
}
