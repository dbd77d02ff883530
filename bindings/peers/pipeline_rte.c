/*
 * The pipeline by DPDK's ring, by its burst calls for any number of producers and takers. With ALONE the sender, which
 * is the only one to take from its ring and to put free buffers, has the calls for one alone there. With RELAXED the
 * rings have DPDK's mode of relaxed tails (RTS), in which no thread waits for the end of another one's put or taking.
 */
#define WEAKER
#include "pipeline.h"
#include <rte_ring.h>

static struct rte_ring *rings[RINGS];

static unsigned flags_of(unsigned ring)
{
#if defined RELAXED
    (void)ring;
    return RING_F_MP_RTS_ENQ | RING_F_MC_RTS_DEQ;
#elif defined ALONE
    return ring == FREE ? RING_F_SP_ENQ : ring == CHECKED ? RING_F_SC_DEQ : 0;
#else
    (void)ring;
    return 0;
#endif
}

static bool make_rings(size_t places)
{
    ssize_t size = rte_ring_get_memsize((unsigned)(2 * places));
    for (unsigned ring = 0; ring < RINGS; ring++) {
        void *memory = NULL;
        if (size < 0 || posix_memalign(&memory, RTE_CACHE_LINE_SIZE, (size_t)size) != 0) {
            return false;
        }
        rings[ring] = (struct rte_ring *)memory;
        if (rte_ring_init(rings[ring], "packets", (unsigned)places, RING_F_EXACT_SZ | flags_of(ring)) != 0) {
            return false;
        }
    }
    return true;
}

static void drop_rings(void)
{
    for (unsigned ring = 0; ring < RINGS; ring++) {
        free(rings[ring]);
    }
}

static size_t put_some(unsigned ring, unsigned thread, const uint64_t *items, size_t count)
{
    (void)thread;
#if defined ALONE || defined RELAXED
    return rte_ring_enqueue_burst_elem(rings[ring], items, sizeof *items, (unsigned)count, NULL);
#else
    return rte_ring_mp_enqueue_burst_elem(rings[ring], items, sizeof *items, (unsigned)count, NULL);
#endif
}

static size_t take_some(unsigned ring, unsigned thread, uint64_t *items, size_t most)
{
    (void)thread;
#if defined ALONE || defined RELAXED
    return rte_ring_dequeue_burst_elem(rings[ring], items, sizeof *items, (unsigned)most, NULL);
#else
    return rte_ring_mc_dequeue_burst_elem(rings[ring], items, sizeof *items, (unsigned)most, NULL);
#endif
}

int main(int count, char **words)
{
    return measure_pipeline(count, words);
}
