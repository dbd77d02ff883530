/* Makes chains with a mark of their own: see mark.h. */
#include "mark.h"
#include "synthesis/raw.h"

int32_t synth_raw_chain_new_marked(uint32_t first, uint64_t mark, struct synth_chain *chain);

int32_t synth_raw_chain_new(uint32_t first, struct synth_chain *chain)
{
    return synth_raw_chain_new_marked(first, synth_next_mark(), chain);
}
