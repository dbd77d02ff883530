/*
 * Concurrency Kit's ring for any number of producers and takers, item by item: it has no call for more. An item is a
 * pointer, here a number that is never followed. One of its 256 places is always empty, so it holds 255 items.
 */
#include "measure.h"
#include <ck_ring.h>

_Static_assert(sizeof(void *) == sizeof(uint64_t), "an item is a pointer");

static APART ck_ring_t ring;
static APART ck_ring_buffer_t buffer[PLACES];

static bool make_queue(unsigned ends)
{
    (void)ends;
    ck_ring_init(&ring, PLACES);
    return true;
}

static void drop_queue(void)
{
}

static size_t put_some(unsigned end, const uint64_t *items, size_t count)
{
    (void)end;
    size_t put = 0;
    while (put < count && ck_ring_enqueue_mpmc(&ring, buffer, (const void *)(uintptr_t)items[put])) {
        put++;
    }
    return put;
}

static size_t take_some(unsigned end, uint64_t *items, size_t most)
{
    (void)end;
    size_t taken = 0;
    void *item;
    while (taken < most && ck_ring_dequeue_mpmc(&ring, buffer, &item)) {
        items[taken++] = (uint64_t)(uintptr_t)item;
    }
    return taken;
}

int main(int count, char **words)
{
    return measure(count, words, 2);
}
