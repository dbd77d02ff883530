/*
 * The steps of the batch queue in C, one by one and on words that lie as its words do, with no handle and no proof: what
 * these steps cost if nothing is added to them. Each is sequentially consistent, as the queue's are. So a put has two
 * locked steps, a compare-and-swap of the head and a store, and a taking has two, a compare-and-swap of the tail and a
 * store. With WEAKER the stores are release stores and the loads acquire loads, which is as much as the algorithm needs:
 * one locked step each is left, as in rte_ring. With FLOOR a put doesn't look whether there is room. What is left, the
 * four locked steps, three loads and the two copies, is the least that a queue of such steps does. It is for one thread.
 */
#include "measure.h"
#include <string.h>

#ifdef WEAKER
#define LOAD __ATOMIC_ACQUIRE
#define STORE __ATOMIC_RELEASE
#else
#define LOAD __ATOMIC_SEQ_CST
#define STORE __ATOMIC_SEQ_CST
#endif

/* The head, the tail, the free position and the marks are 16 words apart. */
enum { HEAD = 0, TAIL = 16, FREE = 32, FIRST_MARK = 48 };

static const uint64_t SHUT = UINT64_C(1) << 63, POSITIONS = UINT64_C(1) << 62;

/* The parity of the mark of a batch that is published, and of a taking that is given back. */
enum parity { PUBLISHED = 0, GIVEN_BACK = 1 };

struct queue {
    uint64_t *words, *slots;
    size_t room;
};

static struct queue queue;

static bool make_queue(unsigned ends)
{
    (void)ends;
    queue.room = PLACES;
    queue.words = aligned_alloc(128, (FIRST_MARK + PLACES) * sizeof *queue.words);
    queue.slots = aligned_alloc(128, PLACES * sizeof *queue.slots);
    if (queue.words == NULL || queue.slots == NULL) {
        return false;
    }
    memset(queue.words, 0, (FIRST_MARK + PLACES) * sizeof *queue.words);
    memset(queue.slots, 0, PLACES * sizeof *queue.slots);
    return true;
}

static void drop_queue(void)
{
    free(queue.words);
    free(queue.slots);
}

static uint64_t load(const struct queue *self, size_t word)
{
    return __atomic_load_n(&self->words[word], LOAD);
}

static bool exchange(struct queue *self, size_t word, uint64_t old, uint64_t new)
{
    return __atomic_compare_exchange_n(&self->words[word], &old, new, false, __ATOMIC_SEQ_CST, __ATOMIC_SEQ_CST);
}

static size_t place(const struct queue *self, uint64_t position)
{
    return position & (self->room - 1);
}

static size_t mark_word(const struct queue *self, uint64_t position)
{
    return place(self, position) + FIRST_MARK;
}

static bool leads_on(enum parity parity, uint64_t position, uint64_t mark)
{
    return mark % 2 == parity && position < mark / 2;
}

/* Follows marks from `at` on, no further than to `most`. */
static uint64_t walk(const struct queue *self, uint64_t at, uint64_t most, enum parity parity)
{
    while (at < most) {
        uint64_t mark = load(self, mark_word(self, at));
        if (!leads_on(parity, at, mark) || mark / 2 > most) {
            break;
        }
        at = mark / 2;
    }
    return at;
}

/* Whether there is room up to this position. If not at once, places that are given back are counted. */
static bool has_room(struct queue *self, uint64_t end)
{
#ifdef FLOOR
    (void)self;
    (void)end;
    return true;
#else
    uint64_t free = load(self, FREE);
    if (end <= free + self->room) {
        return true;
    }
    uint64_t to = walk(self, free, free + self->room, GIVEN_BACK);
    return to != free && exchange(self, FREE, free, to) && end <= to + self->room;
#endif
}

/* How many of `count` positions from `start` on have slots side by side. The others begin at the first slot. */
static size_t first_run(const struct queue *self, uint64_t start, size_t count)
{
    size_t before = self->room - place(self, start);
    return count < before ? count : before;
}

static void copy(uint64_t *to, const uint64_t *from, size_t count)
{
    for (size_t i = 0; i < count; i++) {
        to[i] = from[i];
    }
}

/* A call of its own, as a call of the library is one. */
static __attribute__((noinline)) bool try_put(struct queue *self, const uint64_t *items, size_t count)
{
    if (count == 0 || count > self->room) {
        return false;
    }
    uint64_t head = load(self, HEAD), end = head + count;
    if (head >= SHUT || end >= POSITIONS || !has_room(self, end) || !exchange(self, HEAD, head, end)) {
        return false;
    }
    size_t first = first_run(self, head, count);
    copy(self->slots + place(self, head), items, first);
    copy(self->slots, items + first, count - first);
    __atomic_store_n(&self->words[mark_word(self, head)], 2 * end + PUBLISHED, STORE);
    return true;
}

static __attribute__((noinline)) size_t try_take(struct queue *self, uint64_t *items, size_t most)
{
    uint64_t tail = load(self, TAIL);
    uint64_t mark = load(self, mark_word(self, tail));
    if (!leads_on(PUBLISHED, tail, mark)) {
        must(load(self, HEAD) != SHUT + tail, "the queue was shut");
        (void)load(self, TAIL);
        return 0;
    }
    most = most < self->room ? most : self->room;
    if (mark / 2 - tail > most) {
        return 0;
    }
    uint64_t end = walk(self, mark / 2, tail + most, PUBLISHED);
    if (!exchange(self, TAIL, tail, end)) {
        return 0;
    }
    size_t count = end - tail, first = first_run(self, tail, count);
    copy(items, self->slots + place(self, tail), first);
    copy(items + first, self->slots, count - first);
    __atomic_store_n(&self->words[mark_word(self, tail)], 2 * end + GIVEN_BACK, STORE);
    return count;
}

static size_t put_some(unsigned end, const uint64_t *items, size_t count)
{
    (void)end;
    return try_put(&queue, items, count) ? count : 0;
}

static size_t take_some(unsigned end, uint64_t *items, size_t most)
{
    (void)end;
    return try_take(&queue, items, most);
}

int main(int count, char **words)
{
#ifdef FLOOR
    return measure(count, words, 0);
#else
    return measure(count, words, 2);
#endif
}
