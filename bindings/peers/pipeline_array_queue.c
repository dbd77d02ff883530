/* The pipeline by crossbeam's ArrayQueue, item by item: it has no call for more. A call from C is for a whole burst. */
#define WEAKER
#include "pipeline.h"

struct array_queue;
struct array_queue *array_queue_new(size_t places);
void array_queue_free(struct array_queue *queue);
size_t array_queue_put(const struct array_queue *queue, const uint64_t *items, size_t count);
size_t array_queue_take(const struct array_queue *queue, uint64_t *items, size_t most);

static struct array_queue *rings[RINGS];

static bool make_rings(size_t places)
{
    for (unsigned ring = 0; ring < RINGS; ring++) {
        rings[ring] = array_queue_new(places);
    }
    return true;
}

static void drop_rings(void)
{
    for (unsigned ring = 0; ring < RINGS; ring++) {
        array_queue_free(rings[ring]);
    }
}

static size_t put_some(unsigned ring, unsigned thread, const uint64_t *items, size_t count)
{
    (void)thread;
    return array_queue_put(rings[ring], items, count);
}

static size_t take_some(unsigned ring, unsigned thread, uint64_t *items, size_t most)
{
    (void)thread;
    return array_queue_take(rings[ring], items, most);
}

int main(int count, char **words)
{
    return measure_pipeline(count, words);
}
