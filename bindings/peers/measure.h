/*
 * How each program of this folder measures its queue. The program gives the four functions below, and its main is
 * `measure`:
 *
 *     PROGRAM ITEMS [CORE CORE [CORE CORE]]
 *
 * passes so many items through the queue, in lines of 1, 16 and 64, and prints a row for each figure: the course, the
 * length of a line, and the nanoseconds an item. The courses are
 *
 *     alone               one thread puts a line and takes it again
 *     pair-short, -long   a thread puts lines and another takes them; the words say how a thread waits
 *     two-short, -long    two threads put, each a half, and two others take
 *     lone-short, -long   a thread puts an item now and then, and another takes it. In the place of the length are the
 *                         microseconds from one put to the next, and the figure is the median of the nanoseconds from
 *                         before a put till after the taking
 *
 * The rows of the course `vain` have the failed tries of the taker for each line, as a thread puts lines, another takes
 * them, and waits are long.
 *
 * Of each two cores the first is a thread's that puts, and the second one's that takes. All but the first course need
 * two cores, and that of two threads on either side needs four. The row `handoff` has how many nanoseconds a word
 * takes from one core to the other. The row `away` has for how many per cent of the time of threads that met other
 * threads had their cores. A program whose threads may sleep defines SLEEPS, and has no such row.
 *
 * Each item that is taken is compared with the one that has to come. Where two threads put, the items of each have to
 * come in their order, and all items add up. The queue has to be empty after the last item. Status 1: an item was lost,
 * came twice or came out of order, or there was no memory, thread or core.
 */
#ifndef MEASURE_H
#define MEASURE_H
#include "basics.h"
#include <pthread.h>
#include <sched.h>
#include <stddef.h>

enum { PLACES = 256, MOST = 64, MOST_ENDS = 2, MOST_CORES = 2 * MOST_ENDS, LONES = 300, HANDOFFS = 1000 };

/* The longest of the short waits is of 2 to the power of LONGEST_SHORT pauses. */
enum { LONGEST_SHORT = 6 };

/* So many failed tries are followed by a long wait. */
enum { LONG_WAITS = 8 };

/* A long wait, in nanoseconds. The variable SYNTHESIS_WAIT of the environment has another number. */
static uint64_t long_wait = 2000;

static const uint64_t END_OF_LINE = 10;

enum course { ALONE, PAIR, TWO, LONE };

/* How a thread waits after a failed try, and before the next one. */
enum waits { SHORT, LONG };

/*
 * Makes the queue, empty, with PLACES places where it can have so many. It has so many ends to put at, 1 or 2, and as
 * many to take at, each for a thread of its own. False: it can't be made.
 */
static bool make_queue(unsigned ends);
/* Takes the memory of the queue back. */
static void drop_queue(void);
/* One try to put a line, or what is left of it, at this end. Gives how many of its first items were put. */
static size_t put_some(unsigned end, const uint64_t *items, size_t count);
/* One try to take a line at this end. Gives how many items were taken, `most` or fewer. There is room for PLACES. */
static size_t take_some(unsigned end, uint64_t *items, size_t most);

/*
 * Waits after a failed try, of which there were so many before. Short waits are of 1, 2, 4 and so on to 64 pauses,
 * as those of crossbeam's `Backoff`; long ones are of two microseconds, eight times. After them each wait is as long
 * as others want the core.
 */
static void wait_a_little(enum waits waits, unsigned *tries)
{
    if (*tries > (waits == SHORT ? LONGEST_SHORT : LONG_WAITS - 1)) {
        sched_yield();
        return;
    }
    if (waits == LONG) {
        wait_till(elapsed() + long_wait);
    }
    for (unsigned i = 0; waits == SHORT && i < 1u << *tries; i++) {
        pause_once();
    }
    *tries += 1;
}

static void pin(int core)
{
#ifdef __linux__
    cpu_set_t set;
    CPU_ZERO(&set);
    CPU_SET((size_t)core, &set);
    must(sched_setaffinity(0, sizeof set, &set) == 0, "a thread can't be pinned to its core");
#else
    (void)core;
    must(false, "threads can't be pinned here");
#endif
}

/* The numbers of the items that end a line have all bits of the mask. One that is alone in its line ends none. */
static uint64_t mask_of(size_t length)
{
    return length == 1 ? UINT64_MAX : length - 1;
}

/* The item of this number: 11 and above, each once, but 10 at the end of a line, by which a line can be recognised. */
static uint64_t item_of(uint64_t number, uint64_t mask)
{
    return (number & mask) == mask ? END_OF_LINE : number + END_OF_LINE + 1;
}

/* The number of the first item that is put at this end. */
static uint64_t first_of(unsigned end)
{
    return (uint64_t)end << 40;
}

/* The end at which an item was put that ends no line. */
static unsigned end_of(uint64_t item)
{
    return item >> 40 & 1;
}

static void write_line(uint64_t *line, size_t length, uint64_t first, uint64_t mask)
{
    for (size_t i = 0; i < length; i++) {
        line[i] = item_of(first + i, mask);
    }
}

/* 0 where these are the items from this number on. */
static uint64_t difference(const uint64_t *taken, size_t count, uint64_t first, uint64_t mask)
{
    uint64_t bits = 0;
    for (size_t i = 0; i < count; i++) {
        bits |= taken[i] ^ item_of(first + i, mask);
    }
    return bits;
}

/* The failed tries to take, of this thread. */
static __thread uint64_t vain;

static void put_line(unsigned end, enum waits waits, const uint64_t *line, size_t length)
{
    unsigned tries = 0;
    size_t put = put_some(end, line, length);
    while (put < length) {
        wait_a_little(waits, &tries);
        put += put_some(end, line + put, length - put);
    }
}

/* Takes 1 to `most` items. */
static size_t take_line(unsigned end, enum waits waits, uint64_t *items, size_t most)
{
    unsigned tries = 0;
    size_t count = take_some(end, items, most);
    while (count == 0) {
        vain++;
        wait_a_little(waits, &tries);
        count = take_some(end, items, most);
    }
    return count;
}

/* Takes the items of the numbers from `next` to before `end`, of lines of this length. 0 where they were those. */
static uint64_t take_items(enum waits waits, uint64_t next, uint64_t end, size_t length)
{
    uint64_t taken[PLACES], bits = 0;
    while (next < end) {
        size_t count = take_line(0, waits, taken, length);
        bits |= difference(taken, count, next, mask_of(length));
        next += count;
    }
    return bits | (next ^ end);
}

/* The nanoseconds that one thread takes for whole lines of so many items together. */
static uint64_t time_alone(uint64_t items, size_t length)
{
    uint64_t line[MOST], bits = 0;
    uint64_t begun = told_by(CLOCK_THREAD_CPUTIME_ID);
    for (uint64_t next = 0; next < items; next += length) {
        write_line(line, length, next, mask_of(length));
        put_line(0, SHORT, line, length);
        bits |= take_items(SHORT, next, next + length, length);
    }
    uint64_t ended = told_by(CLOCK_THREAD_CPUTIME_ID);
    must(bits == 0, "an item was lost, came twice or came out of order");
    return ended - begun;
}

/* What a thread works with, and what it reports. Bits that are not 0 mean an item that had not to come. */
struct job {
    void (*work)(struct job *);
    unsigned end;
    enum waits waits;
    uint64_t items;
    size_t length;
    int core;
    pthread_barrier_t *start;
    uint64_t bits, sum, begun, ended, away, vain;
    uint64_t *delays;
} APART;

static void put_all(struct job *job)
{
    uint64_t line[MOST], first = first_of(job->end);
    for (uint64_t next = first; next < first + job->items; next += job->length) {
        write_line(line, job->length, next, mask_of(job->length));
        put_line(job->end, job->waits, line, job->length);
    }
}

static void take_all(struct job *job)
{
    job->bits = take_items(job->waits, 0, job->items, job->length);
}

/* Takes so many items, which two threads put: those of each in their order, each beyond the last one. */
static void take_of_two(struct job *job)
{
    uint64_t taken[PLACES], last[MOST_ENDS] = {0, 0}, bits = 0, sum = 0, left = job->items;
    while (left > 0) {
        size_t count = take_line(job->end, job->waits, taken, left < job->length ? left : job->length);
        for (size_t i = 0; i < count; i++) {
            uint64_t item = taken[i];
            sum += item;
            if (item != END_OF_LINE) {
                bits |= item <= last[end_of(item)];
                last[end_of(item)] = item;
            }
        }
        left -= count;
    }
    job->bits = bits;
    job->sum = sum;
}

/* Puts the time, once in so many microseconds as a length says: a half of them to one and a half, by chance. */
static void put_lone(struct job *job)
{
    uint64_t chance = 1;
    for (uint64_t i = 0; i < job->items; i++) {
        chance = chance * 6364136223846793005u + 1442695040888963407u;
        wait_till(elapsed() + job->length * 500 + (chance >> 33) % (job->length * 1000));
        uint64_t time = elapsed();
        put_line(0, job->waits, &time, 1);
    }
}

static void take_lone(struct job *job)
{
    uint64_t taken[PLACES];
    for (uint64_t i = 0; i < job->items; i++) {
        take_line(0, job->waits, taken, 1);
        job->delays[i] = elapsed() - taken[0];
    }
}

static void *run_job(void *given)
{
    struct job *job = (struct job *)given;
    pin(job->core);
    pthread_barrier_wait(job->start);
    uint64_t had = told_by(CLOCK_THREAD_CPUTIME_ID);
    job->begun = elapsed();
    vain = 0;
    job->work(job);
    job->vain = vain;
    job->ended = elapsed();
    had = told_by(CLOCK_THREAD_CPUTIME_ID) - had;
    job->away = job->ended - job->begun > had ? job->ended - job->begun - had : 0;
    return NULL;
}

/* The time of all threads that met, and for how much of it others had their cores. */
static uint64_t whole, away;

/* Runs threads that begin together. Gives the nanoseconds from the first one's begin till the last one's end. */
static uint64_t time_jobs(struct job *jobs, unsigned count)
{
    pthread_barrier_t start;
    pthread_t threads[MOST_CORES];
    uint64_t begun = UINT64_MAX, ended = 0;
    must(pthread_barrier_init(&start, NULL, count) == 0, "no barrier");
    for (unsigned i = 0; i < count; i++) {
        jobs[i].start = &start;
        must(pthread_create(&threads[i], NULL, run_job, &jobs[i]) == 0, "no thread");
    }
    for (unsigned i = 0; i < count; i++) {
        must(pthread_join(threads[i], NULL) == 0, "a thread can't be joined");
        begun = jobs[i].begun < begun ? jobs[i].begun : begun;
        ended = jobs[i].ended > ended ? jobs[i].ended : ended;
        whole += jobs[i].ended - jobs[i].begun;
        away += jobs[i].away;
    }
    pthread_barrier_destroy(&start);
    return ended - begun;
}

/* The failed tries of the last thread that took what one thread put. */
static uint64_t last_vain;

static uint64_t time_pair(enum waits waits, uint64_t items, size_t length, const int *cores)
{
    struct job jobs[] = {
        {put_all, 0, waits, items, length, cores[0], NULL, 0, 0, 0, 0, 0, 0, NULL},
        {take_all, 0, waits, items, length, cores[1], NULL, 0, 0, 0, 0, 0, 0, NULL},
    };
    uint64_t time = time_jobs(jobs, 2);
    last_vain = jobs[1].vain;
    must(jobs[1].bits == 0, "an item was lost, came twice or came out of order");
    return time;
}

/* The sum of so many items that are put at this end. */
static uint64_t sum_of(unsigned end, uint64_t items, size_t length)
{
    uint64_t sum = 0;
    for (uint64_t i = 0; i < items; i++) {
        sum += item_of(first_of(end) + i, mask_of(length));
    }
    return sum;
}

static uint64_t time_two(enum waits waits, uint64_t items, size_t length, const int *cores)
{
    uint64_t each = items / 2;
    struct job jobs[] = {
        {put_all, 0, waits, each, length, cores[0], NULL, 0, 0, 0, 0, 0, 0, NULL},
        {take_of_two, 0, waits, each, length, cores[1], NULL, 0, 0, 0, 0, 0, 0, NULL},
        {put_all, 1, waits, each, length, cores[2], NULL, 0, 0, 0, 0, 0, 0, NULL},
        {take_of_two, 1, waits, each, length, cores[3], NULL, 0, 0, 0, 0, 0, 0, NULL},
    };
    uint64_t time = time_jobs(jobs, 4);
    must((jobs[1].bits | jobs[3].bits) == 0, "an item came twice or came out of order");
    must(jobs[1].sum + jobs[3].sum == sum_of(0, each, length) + sum_of(1, each, length), "an item was lost or came twice");
    return time;
}

static uint64_t time_lines(enum course course, enum waits waits, uint64_t items, size_t length, const int *cores)
{
    switch (course) {
    case ALONE:
        return time_alone(items, length);
    case PAIR:
        return time_pair(waits, items, length, cores);
    default:
        return time_two(waits, items, length, cores);
    }
}

/* One figure, in nanoseconds an item. A tenth of the items goes through the queue first, and isn't counted. */
static double time_each(enum course course, enum waits waits, uint64_t items, size_t length, const int *cores)
{
    uint64_t lines = items / length / 2, tenth = lines / 10;
    uint64_t left[PLACES], time = 0;
    must(make_queue(course == TWO ? 2 : 1), "the queue can't be made");
    for (int round = 0; round < 2; round++) {
        time = time_lines(course, waits, 2 * (round == 0 ? tenth : lines) * length, length, cores);
        must(take_some(0, left, 1) == 0, "more items came than were put");
    }
    drop_queue();
    return (double)time / (double)(2 * lines * length);
}

static int compare(const void *one, const void *other)
{
    uint64_t a = *(const uint64_t *)one, b = *(const uint64_t *)other;
    return (a > b) - (a < b);
}

/* The median of the nanoseconds from before a put till after the taking, where so many microseconds are between two. */
static double time_lone(enum waits waits, size_t gap, const int *cores)
{
    static uint64_t delays[LONES];
    struct job jobs[] = {
        {put_lone, 0, waits, LONES, gap, cores[0], NULL, 0, 0, 0, 0, 0, 0, NULL},
        {take_lone, 0, waits, LONES, gap, cores[1], NULL, 0, 0, 0, 0, 0, 0, delays},
    };
    must(make_queue(1), "the queue can't be made");
    time_jobs(jobs, 2);
    drop_queue();
    qsort(delays, LONES, sizeof *delays, compare);
    return (double)delays[LONES / 2];
}

static APART uint64_t word;

/* Hands the word over again and again: it is even where it comes to the end 0, and odd where it comes to the end 1. */
static void hand_over(struct job *job)
{
    for (uint64_t i = 0; i < job->items; i++) {
        while (__atomic_load_n(&word, __ATOMIC_SEQ_CST) != 2 * i + job->end) {
        }
        __atomic_store_n(&word, 2 * i + job->end + 1, __ATOMIC_SEQ_CST);
    }
}

static double time_handoff(const int *cores)
{
    struct job jobs[] = {
        {hand_over, 0, SHORT, HANDOFFS, 1, cores[0], NULL, 0, 0, 0, 0, 0, 0, NULL},
        {hand_over, 1, SHORT, HANDOFFS, 1, cores[1], NULL, 0, 0, 0, 0, 0, 0, NULL},
    };
    word = 0;
    return (double)time_jobs(jobs, 2) / (2 * HANDOFFS);
}

static void print_lines(const char *name, enum course course, enum waits waits, uint64_t items, const int *cores)
{
    static const size_t lengths[] = {1, 16, MOST};
    for (int i = 0; i < 3; i++) {
        printf("%s %zu %.2f\n", name, lengths[i], time_each(course, waits, items, lengths[i], cores));
        if (course == PAIR && waits == LONG) {
            printf("vain %zu %.3f\n", lengths[i], (double)last_vain / (double)(items / lengths[i] / 2 * 2));
        }
    }
}

static void print_lone(const char *name, enum waits waits, const int *cores)
{
    static const size_t gaps[] = {5, 50};
    for (int i = 0; i < 2; i++) {
        printf("%s %zu %.2f\n", name, gaps[i], time_lone(waits, gaps[i], cores));
    }
}

/* Measures a queue that has so many ends to put at and to take at: 0 where it is for one thread alone. */
static int measure(int count, char **words, int ends)
{
    uint64_t items = count > 1 ? strtoull(words[1], NULL, 10) : 0;
    int given = count - 2, cores[MOST_CORES] = {0, 0, 0, 0};
    if (getenv("SYNTHESIS_WAIT") != NULL) {
        long_wait = strtoull(getenv("SYNTHESIS_WAIT"), NULL, 10);
    }
    must(items >= 2000 && (given == 0 || given == 2 || given == 4), "ITEMS [CORE CORE [CORE CORE]] are wanted");
    for (int i = 0; i < given; i++) {
        cores[i] = atoi(words[i + 2]);
    }
    if (given > 0) {
        pin(cores[0]);
    }
    print_lines("alone", ALONE, SHORT, items, cores);
    if (given >= 2 && ends >= 1) {
        printf("handoff 1 %.2f\n", time_handoff(cores));
        print_lines("pair-short", PAIR, SHORT, items, cores);
        print_lines("pair-long", PAIR, LONG, items, cores);
        print_lone("lone-short", SHORT, cores);
        print_lone("lone-long", LONG, cores);
    }
    if (given == 4 && ends == 2) {
        print_lines("two-short", TWO, SHORT, items, cores);
        print_lines("two-long", TWO, LONG, items, cores);
    }
#ifndef SLEEPS
    if (whole > 0) {
        printf("away 1 %.2f\n", 100.0 * (double)away / (double)whole);
    }
#endif
    return 0;
}
#endif
