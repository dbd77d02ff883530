/* The example at the head of synthesis.h: bindings/test compares them. Status 0: each call did what it says. */
#include "synthesis.h"

int main(void)
{
    struct synth_batch mine = SYNTH_BATCH_INIT, yours = SYNTH_BATCH_INIT;
    uint64_t items[32] = {1, 2, 3};
    size_t count = 0;

    if (synth_batch_new(32, &mine) != SYNTH_OK) return 1;             // an empty queue with room for 32 items
    if (synth_batch_split(&mine, &yours) != SYNTH_OK) return 1;       // one more end of it, for another thread
    if (synth_batch_try_put(&mine, items, 3, NULL) != SYNTH_OK)       // one batch: all three items or none
        return 1;
    if (synth_batch_try_take(&yours, items, 32, &count, NULL) != SYNTH_OK)  // whole batches: count is 3
        return 1;
    if (synth_batch_join(&mine, &yours) != SYNTH_OK) return 1;        // the first end has the whole queue again
    return synth_batch_finish(&mine, items, 32, NULL);                // and ends it
}
