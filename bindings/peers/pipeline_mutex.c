/* The pipeline by arrays, each with a mutex and a condition variable, on which those sleep who find nothing to take. */
#define OWN_SLEEP
#include "pipeline.h"

static struct {
    APART pthread_mutex_t mutex;
    pthread_cond_t has_items;
    uint64_t *items;
    size_t places, head, tail;
} rings[RINGS];

static bool make_rings(size_t places)
{
    bool are_made = true;
    for (unsigned ring = 0; ring < RINGS; ring++) {
        pthread_mutex_init(&rings[ring].mutex, NULL);
        pthread_cond_init(&rings[ring].has_items, NULL);
        rings[ring].items = (uint64_t *)calloc(places, sizeof(uint64_t));
        rings[ring].places = places;
        rings[ring].head = 0;
        rings[ring].tail = 0;
        are_made = are_made && rings[ring].items != NULL;
    }
    return are_made;
}

static void drop_rings(void)
{
    for (unsigned ring = 0; ring < RINGS; ring++) {
        free(rings[ring].items);
    }
}

static size_t put_some(unsigned ring, unsigned thread, const uint64_t *items, size_t count)
{
    (void)thread;
    pthread_mutex_lock(&rings[ring].mutex);
    size_t put = least(count, rings[ring].places - (rings[ring].head - rings[ring].tail));
    for (size_t i = 0; i < put; i++) {
        rings[ring].items[rings[ring].head++ & (rings[ring].places - 1)] = items[i];
    }
    pthread_mutex_unlock(&rings[ring].mutex);
    pthread_cond_signal(&rings[ring].has_items);
    return put;
}

/* Takes up to `most` items, while the mutex is held. */
static size_t take_held(unsigned ring, uint64_t *items, size_t most)
{
    size_t count = least(most, rings[ring].head - rings[ring].tail);
    for (size_t i = 0; i < count; i++) {
        items[i] = rings[ring].items[rings[ring].tail++ & (rings[ring].places - 1)];
    }
    return count;
}

static size_t take_some(unsigned ring, unsigned thread, uint64_t *items, size_t most)
{
    (void)thread;
    pthread_mutex_lock(&rings[ring].mutex);
    size_t count = take_held(ring, items, most);
    pthread_mutex_unlock(&rings[ring].mutex);
    return count;
}

/* A taker that leaves items wakes one more. */
static size_t take_sleeping(unsigned ring, unsigned thread, uint64_t *items, size_t most)
{
    size_t count;
    (void)thread;
    pthread_mutex_lock(&rings[ring].mutex);
    while ((count = take_held(ring, items, most)) == 0 && !sleeps[ring].is_over) {
        pthread_cond_wait(&rings[ring].has_items, &rings[ring].mutex);
    }
    bool has_more = rings[ring].head != rings[ring].tail;
    pthread_mutex_unlock(&rings[ring].mutex);
    if (has_more) {
        pthread_cond_signal(&rings[ring].has_items);
    }
    return count;
}

static void end_ring(unsigned ring)
{
    pthread_mutex_lock(&rings[ring].mutex);
    sleeps[ring].is_over = true;
    pthread_mutex_unlock(&rings[ring].mutex);
    pthread_cond_broadcast(&rings[ring].has_items);
}

int main(int count, char **words)
{
    return measure_pipeline(count, words);
}
