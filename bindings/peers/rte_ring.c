/*
 * DPDK's ring for any number of producers and takers, by its bulk calls: a whole line is put, and a whole line taken. It
 * lies in memory of this program and has all 256 places, by RING_F_EXACT_SZ.
 */
#include "measure.h"
#include <rte_ring.h>

static struct rte_ring *ring;

static bool make_queue(unsigned ends)
{
    (void)ends;
    ssize_t size = rte_ring_get_memsize(2 * PLACES);
    void *memory = NULL;
    if (size < 0 || posix_memalign(&memory, RTE_CACHE_LINE_SIZE, (size_t)size) != 0) {
        return false;
    }
    ring = (struct rte_ring *)memory;
    return rte_ring_init(ring, "lines", PLACES, RING_F_EXACT_SZ) == 0 && rte_ring_get_capacity(ring) == PLACES;
}

static void drop_queue(void)
{
    free(ring);
}

static size_t put_some(unsigned end, const uint64_t *items, size_t count)
{
    (void)end;
    return rte_ring_mp_enqueue_bulk_elem(ring, items, sizeof *items, (unsigned)count, NULL);
}

static size_t take_some(unsigned end, uint64_t *items, size_t most)
{
    (void)end;
    return rte_ring_mc_dequeue_bulk_elem(ring, items, sizeof *items, (unsigned)most, NULL);
}

int main(int count, char **words)
{
    return measure(count, words, 2);
}
