/*
 * How each program pipeline_* of this folder measures its queue, as the three rings of a pipeline of packets. The
 * program gives the functions below, and its main is `measure_pipeline`:
 *
 *     PROGRAM PACKETS [BUFFERS]
 *
 * Two receivers take free buffers, write a packet into each, and put them into the first ring. Two workers take them
 * from there, check and change them, and put them into the second ring. A sender takes them from there, checks them,
 * and puts their buffers into the third ring, from which the receivers take them again. So 256 buffers, or as many as
 * are given, go round. Each ring has room for all of them. Up to 32 at once are taken, and what was taken at once is
 * put at once. With MANY_RECEIVERS and MANY_WORKERS there are so many of them.
 *
 * A failed try is followed by waits, and then by a sleep till something is put: by the event count of
 * synthesis_event.h, if the program has no sleep of its own. With short waits these are 1, 2, 4 and so on to 64 pauses;
 * with long ones eight times two microseconds.
 *
 * Prints two rows for each of the waits: their name, the number of buffers, and the nanoseconds from one packet sent to
 * the next; and the same name with `-busy`, the number of buffers, and how many processors were busy on average
 * (getrusage). A tenth of the packets goes through first, and isn't counted.
 *
 * Each packet has a number, words and their sum, and a state that says who has it next. Whoever takes it checks all of
 * them, and the sender has a bit for each number. At the end each buffer has to be free once. Status 1: a packet was
 * lost, came twice, or was written to by two, or there was no memory or thread.
 */
#ifndef PIPELINE_H
#define PIPELINE_H
#include "basics.h"
#include "synthesis_event.h"
#include <pthread.h>
#include <sched.h>
#include <sys/resource.h>

enum { BURST = 32, BUFFERS = 256, MOST_BUFFERS = 65536, WORDS = 5 };

enum ring { FREE, RECEIVED, CHECKED, RINGS };

#ifndef MANY_RECEIVERS
#define MANY_RECEIVERS 2
#endif
#ifndef MANY_WORKERS
#define MANY_WORKERS 2
#endif

enum { RECEIVERS = MANY_RECEIVERS, WORKERS = MANY_WORKERS, SENDER = RECEIVERS + WORKERS, THREADS = SENDER + 1 };

/* The longest of the short waits is of 2 to the power of LONGEST_SHORT pauses. */
enum { LONGEST_SHORT = 6 };

/* So many long waits are followed by a sleep. */
enum { LONG_WAITS = 8 };

enum waits { SHORT, LONG };

/*
 * Makes the rings, empty, each with room for so many items: a power of two. A thread of a number below THREADS has ends
 * of its own, if the queue has such. False: they can't be made.
 */
static bool make_rings(size_t places);
/* Takes the memory of the rings back. */
static void drop_rings(void);
/* One try of a thread to put items into a ring. Gives how many of the first ones were put. */
static size_t put_some(unsigned ring, unsigned thread, const uint64_t *items, size_t count);
/* One try of a thread to take up to `most` items from a ring. Gives how many were taken. */
static size_t take_some(unsigned ring, unsigned thread, uint64_t *items, size_t most);

#ifdef OWN_SLEEP
/* Takes up to `most` items, and sleeps while there is none: 0 where the ring is over. */
static size_t take_sleeping(unsigned ring, unsigned thread, uint64_t *items, size_t most);
/* Nothing will come any more: wakes all who sleep at the ring. */
static void end_ring(unsigned ring);
#endif

/* Who has a packet next. */
enum state { IS_FREE, IS_RECEIVED, IS_CHECKED };

struct packet {
    uint64_t state, number, sum, words[WORDS];
} __attribute__((aligned(64)));

/*
 * What a thread works with, and what it reports. Bits that are not 0 mean a packet that is not as it has to be. A
 * receiver has spare buffers at its end, if it took more of them than packets were left to receive.
 */
struct job {
    void (*work)(struct job *);
    unsigned number;
    uint64_t first, end, bits;
    pthread_barrier_t *start;
    size_t spares;
    uint64_t spare[BURST];
} APART;

/* What those sleep by who take from a ring. It is over when nothing will come any more. */
static struct {
    APART synth_event items;
    APART bool is_over;
} sleeps[RINGS];

static struct packet *packets;
static uint64_t *sent;
static enum waits waits;
static uint64_t long_wait = 2000;

/* Waits after a failed try, of which there were so many before. False: it is time to sleep. */
static bool wait_a_little(unsigned tries)
{
    if (tries > (waits == SHORT ? LONGEST_SHORT : LONG_WAITS - 1)) {
        return false;
    }
    if (waits == LONG) {
        wait_till(elapsed() + long_wait);
    }
    for (unsigned i = 0; waits == SHORT && i < 1u << tries; i++) {
        pause_once();
    }
    return true;
}

#ifndef OWN_SLEEP
/* The steps of a queue that are weaker than sequentially consistent want a fence between themselves and an event's. */
static void order_events(void)
{
#ifdef WEAKER
    __atomic_thread_fence(__ATOMIC_SEQ_CST);
#endif
}

static bool is_over(unsigned ring)
{
    return __atomic_load_n(&sleeps[ring].is_over, __ATOMIC_SEQ_CST);
}

static size_t take_sleeping(unsigned ring, unsigned thread, uint64_t *items, size_t most)
{
    synth_event *event = &sleeps[ring].items;
    size_t count = 0;
    bool has_slept = false;
    while ((count = take_some(ring, thread, items, most)) == 0 && !is_over(ring)) {
        uint32_t ticket = synth_event_prepare(event);
        order_events();
        if ((count = take_some(ring, thread, items, most)) > 0 || is_over(ring)) {
            synth_event_cancel(event);
            break;
        }
        synth_event_wait(event, ticket, SYNTH_EVENT_NO_LIMIT);
        has_slept = true;
    }
    if (has_slept) {
        synth_event_notify_one(event);
    }
    return count;
}

static void end_ring(unsigned ring)
{
    __atomic_store_n(&sleeps[ring].is_over, true, __ATOMIC_SEQ_CST);
    synth_event_notify_all(&sleeps[ring].items);
}
#endif

/* Takes 1 to `most` items; 0 where the ring is over. */
static size_t take_burst(unsigned ring, unsigned thread, uint64_t *items, size_t most)
{
    unsigned tries = 0;
    size_t count = take_some(ring, thread, items, most);
    while (count == 0 && wait_a_little(tries++)) {
        count = take_some(ring, thread, items, most);
    }
    return count > 0 ? count : take_sleeping(ring, thread, items, most);
}

/* Puts all items. There is room for them, once those who take at the time are done. */
static void put_burst(unsigned ring, unsigned thread, const uint64_t *items, size_t count)
{
    unsigned tries = 0;
    for (size_t put = 0; put < count;) {
        size_t more = put_some(ring, thread, items + put, count - put);
        if (more == 0 && !wait_a_little(tries++)) {
            sched_yield();
        }
        put += more;
    }
#ifndef OWN_SLEEP
    order_events();
    synth_event_notify_one(&sleeps[ring].items);
#endif
}

static size_t least(size_t one, size_t other)
{
    return one < other ? one : other;
}

static struct packet *packet_of(uint64_t item)
{
    return (struct packet *)(uintptr_t)item;
}

static uint64_t sum_of(const struct packet *packet)
{
    uint64_t sum = packet->number;
    for (int i = 0; i < WORDS; i++) {
        sum = sum * 31 + packet->words[i];
    }
    return sum;
}

/* 0 where the packet has this state, and its words and its number have this sum. */
static uint64_t check(const struct packet *packet, enum state state)
{
    return (packet->state ^ state) | (packet->sum ^ sum_of(packet));
}

static void receive(struct packet *packet, uint64_t number)
{
    packet->number = number;
    for (int i = 0; i < WORDS; i++) {
        packet->words[i] = number * 5 + (uint64_t)i;
    }
    packet->sum = sum_of(packet);
    packet->state = IS_RECEIVED;
}

static void receive_all(struct job *job)
{
    uint64_t items[BURST];
    for (uint64_t next = job->first; next < job->end;) {
        size_t taken = take_burst(FREE, job->number, items, BURST), count = least(taken, job->end - next);
        for (size_t i = 0; i < count; i++) {
            job->bits |= check(packet_of(items[i]), IS_FREE);
            receive(packet_of(items[i]), next + i);
        }
        put_burst(RECEIVED, job->number, items, count);
        next += count;
        for (size_t i = count; i < taken; i++) {
            job->spare[job->spares++] = items[i];
        }
    }
}

/* A worker adds to a word of the packet, as a router does to its hop count, and to the sum. */
static void work_all(struct job *job)
{
    uint64_t items[BURST];
    size_t count;
    while ((count = take_burst(RECEIVED, job->number, items, BURST)) > 0) {
        for (size_t i = 0; i < count; i++) {
            struct packet *packet = packet_of(items[i]);
            job->bits |= check(packet, IS_RECEIVED);
            packet->words[WORDS - 1]++;
            packet->sum++;
            packet->state = IS_CHECKED;
        }
        put_burst(CHECKED, job->number, items, count);
    }
}

/* Notes that this packet was sent. Not 0, if it was sent before, or its words are not those of its number. */
static uint64_t note_sent(const struct packet *packet, uint64_t end)
{
    uint64_t number = packet->number, bit = (uint64_t)1 << number % 64;
    uint64_t words = packet->words[WORDS - 1] ^ (number * 5 + WORDS);
    if (number >= end || (sent[number / 64] & bit) != 0) {
        return 1;
    }
    sent[number / 64] |= bit;
    return words;
}

static void send_all(struct job *job)
{
    uint64_t items[BURST];
    for (uint64_t next = job->first; next < job->end;) {
        size_t count = take_burst(CHECKED, job->number, items, BURST);
        for (size_t i = 0; i < count; i++) {
            struct packet *packet = packet_of(items[i]);
            job->bits |= check(packet, IS_CHECKED) | note_sent(packet, job->end);
            packet->state = IS_FREE;
        }
        put_burst(FREE, job->number, items, count);
        next += count;
    }
    end_ring(RECEIVED);
}

static void *run_job(void *given)
{
    struct job *job = (struct job *)given;
    pthread_barrier_wait(job->start);
    job->work(job);
    return NULL;
}

static void make_packets(size_t buffers)
{
    packets = (struct packet *)aligned_alloc(4096, buffers * sizeof *packets);
    must(packets != NULL, "no memory");
    for (size_t i = 0; i < buffers; i++) {
        uint64_t item = (uint64_t)(uintptr_t)&packets[i];
        receive(&packets[i], 0);
        packets[i].state = IS_FREE;
        must(put_some(FREE, SENDER, &item, 1) == 1, "a ring has no room for all buffers");
    }
}

/* All buffers are free, each once, and no ring has another item. */
static void drop_packets(size_t buffers)
{
    uint64_t items[BURST];
    for (size_t left = buffers, count; left > 0; left -= count) {
        count = take_some(FREE, 0, items, BURST);
        must(count > 0 && count <= left, "a buffer was lost or came twice");
        for (size_t i = 0; i < count; i++) {
            must(check(packet_of(items[i]), IS_FREE) == 0, "a buffer is free twice");
            packet_of(items[i])->state = IS_RECEIVED;
        }
    }
    must(take_some(FREE, 0, items, BURST) == 0, "more buffers came than there are");
    must(take_some(RECEIVED, RECEIVERS, items, BURST) == 0, "more packets came than were received");
    must(take_some(CHECKED, SENDER, items, BURST) == 0, "more packets came than were checked");
    free(packets);
}

/* The nanoseconds that this process had processors, its own and the system's for it. */
static uint64_t busy_time(void)
{
    struct rusage usage;
    must(getrusage(RUSAGE_SELF, &usage) == 0, "no rusage");
    uint64_t seconds = (uint64_t)usage.ru_utime.tv_sec + (uint64_t)usage.ru_stime.tv_sec;
    return seconds * 1000000000u + ((uint64_t)usage.ru_utime.tv_usec + (uint64_t)usage.ru_stime.tv_usec) * 1000u;
}

/* What came of a part of the packets. */
struct figures {
    double each, busy;
};

/* Sends so many packets. */
static struct figures time_packets(uint64_t count)
{
    pthread_barrier_t start;
    pthread_t threads[THREADS];
    uint64_t each = count / RECEIVERS, all = each * RECEIVERS, bits = 0;
    struct job jobs[THREADS];
    for (unsigned i = 0; i < THREADS; i++) {
        jobs[i].work = i < RECEIVERS ? receive_all : i < SENDER ? work_all : send_all;
        jobs[i].number = i;
        jobs[i].first = i < RECEIVERS ? i * each : 0;
        jobs[i].end = i < RECEIVERS ? (i + 1) * each : all;
        jobs[i].bits = 0;
        jobs[i].start = &start;
        jobs[i].spares = 0;
    }
    for (unsigned ring = 0; ring < RINGS; ring++) {
        synth_event_init(&sleeps[ring].items);
        sleeps[ring].is_over = false;
    }
    sent = (uint64_t *)calloc(count / 64 + 1, sizeof *sent);
    must(sent != NULL && pthread_barrier_init(&start, NULL, THREADS + 1) == 0, "no memory");
    for (unsigned i = 0; i < THREADS; i++) {
        must(pthread_create(&threads[i], NULL, run_job, &jobs[i]) == 0, "no thread");
    }
    uint64_t busy = busy_time(), begun = elapsed();
    pthread_barrier_wait(&start);
    for (unsigned i = 0; i < THREADS; i++) {
        must(pthread_join(threads[i], NULL) == 0, "a thread can't be joined");
        bits |= jobs[i].bits;
    }
    double time = (double)(elapsed() - begun);
    busy = busy_time() - busy;
    pthread_barrier_destroy(&start);
    for (unsigned i = 0; i < RECEIVERS; i++) {
        put_burst(FREE, SENDER, jobs[i].spare, jobs[i].spares);
    }
    for (uint64_t number = 0; number < all; number++) {
        bits |= ~sent[number / 64] >> number % 64 & 1;
    }
    free(sent);
    must(bits == 0, "a packet was lost, came twice or was overwritten");
    return (struct figures){time / (double)all, (double)busy / time};
}

static void measure_waits(enum waits chosen, const char *name, uint64_t count, size_t buffers)
{
    waits = chosen;
    must(make_rings(buffers), "the rings can't be made");
    make_packets(buffers);
    time_packets(count / 10);
    struct figures figures = time_packets(count);
    drop_packets(buffers);
    drop_rings();
    printf("%s %zu %.2f\n", name, buffers, figures.each);
    printf("%s-busy %zu %.3f\n", name, buffers, figures.busy);
}

static int measure_pipeline(int count, char **words)
{
    uint64_t packets_wanted = count > 1 ? strtoull(words[1], NULL, 10) : 0;
    size_t buffers = BUFFERS;
    if (count > 2) {
        buffers = (size_t)strtoull(words[2], NULL, 10);
    }
    if (getenv("SYNTHESIS_WAIT") != NULL) {
        long_wait = strtoull(getenv("SYNTHESIS_WAIT"), NULL, 10);
    }
    must(packets_wanted >= 2000 && buffers >= BURST && buffers <= MOST_BUFFERS && (buffers & (buffers - 1)) == 0,
         "PACKETS [BUFFERS] are wanted");
    measure_waits(SHORT, "short", packets_wanted, buffers);
    measure_waits(LONG, "long", packets_wanted, buffers);
    return 0;
}
#endif
