/*
 * One thread writes plain memory and then makes a call, another one makes calls until it finds what the first one did,
 * and reads that memory: each order that synthesis.h promises, once in each of `orders [ROUNDS]`, 200 where no number
 * is given. ThreadSanitizer, to which the header declares these orders, sees no race. Prints one line. Status 1: what
 * was written wasn't seen.
 */
#include "synthesis.h"
#include <pthread.h>
#include <sched.h>
#include <stdio.h>
#include <stdlib.h>

enum { PLACES = 64, ROOM = 16, ELEMENT = 0, OTHER = 1, WAIT = 3, GAUGE = 5, NOTE = 9, SIGNAL = 4 };

/* The ends of one thread. */
struct side {
    struct synth_batch batch;
    struct synth_queue queue;
    struct synth_chain chain;
    struct synth_seat seat;
    struct synth_hand hand;
};

static struct side writer, reader;
static struct synth_line_in input;
static struct synth_line_out output;

/* What is written before a call, a word for each kind of order. No lock and no atomic guards it. */
static uint64_t words[12];
enum kind { BATCH_ITEM, QUEUE_ITEM, BYTE, RUN, CHAINED, TICKED, ALARM, MOVED, SIGNALLED, STOPPED, NOTIFIED, SHUT };

/* Orders nothing by itself. */
static int has_chained;

static void must(synth_code code, const char *what)
{
    if (code != SYNTH_OK) {
        fprintf(stderr, "orders: %s: %s\n", what, synth_code_name(code));
        exit(1);
    }
}

static void *write_all(void *given)
{
    const struct synth_alarm alarm = {0, ELEMENT, SIGNAL};
    const uint8_t bytes[2] = {2, 3};
    uint64_t round = *(uint64_t *)given;
    uint64_t item = (uint64_t)(uintptr_t)&words[BATCH_ITEM];
    words[BATCH_ITEM] = round;
    must(synth_batch_put(&writer.batch, &item, 1, UINT32_MAX), "put");
    words[QUEUE_ITEM] = round;
    item = (uint64_t)(uintptr_t)&words[QUEUE_ITEM];
    must(synth_queue_put(&writer.queue, &item, 1, UINT32_MAX), "put");
    words[BYTE] = round;
    must(synth_line_push(&input, 1), "push");
    words[RUN] = round;
    must(synth_line_push_some(&input, bytes, 2, NULL), "push_some");
    words[CHAINED] = round;
    if (synth_chain_try_chain(&writer.chain, NOTE, NULL) != SYNTH_LEFT) {
        must(SYNTH_RUNNING, "chain");
    }
    __atomic_store_n(&has_chained, 1, __ATOMIC_RELAXED);
    words[TICKED] = round;
    must(synth_seat_tick(&writer.seat, GAUGE, 1, NULL), "tick");
    words[ALARM] = round;
    must(synth_seat_try_set(&writer.seat, &alarm, NULL), "set");
    words[MOVED] = round;
    must(synth_hand_try_ready(&writer.hand, ELEMENT, NULL), "ready");
    words[SIGNALLED] = round;
    must(synth_hand_signal(&writer.hand, OTHER, SIGNAL, NULL), "signal");
    words[STOPPED] = round;
    must(synth_hand_stop(&writer.hand, OTHER, NULL), "stop");
    words[NOTIFIED] = round;
    must(synth_hand_notify(&writer.hand, WAIT, NULL), "notify");
    words[SHUT] = round;
    must(synth_batch_shut(&writer.batch), "shut");
    return NULL;
}

static uint64_t *take_from_batch(void)
{
    uint64_t item = 0;
    while (synth_batch_take(&reader.batch, &item, 1, 9, NULL) != SYNTH_OK) {
        sched_yield();
    }
    return (uint64_t *)(uintptr_t)item;
}

static uint64_t *take_from_queue(void)
{
    uint64_t item = 0;
    while (synth_queue_take(&reader.queue, &item, 9) != SYNTH_OK) {
        sched_yield();
    }
    return (uint64_t *)(uintptr_t)item;
}

/* The reader runs notes already, so the writer's note is left to it. */
static void run_notes(void)
{
    uint16_t note = 0;
    while (__atomic_load_n(&has_chained, __ATOMIC_RELAXED) == 0) {
        sched_yield();
    }
    while (note != NOTE) {
        synth_code code = synth_chain_next(&reader.chain, &note);
        if (code != SYNTH_NOTE && code != SYNTH_AGAIN) {
            must(code == SYNTH_OK ? SYNTH_NOT_RUNNING : code, "next");
        }
    }
}

static void read_meters(uint64_t *seen)
{
    struct synth_alarm alarms[ROOM];
    uint64_t before = 0;
    size_t count = 0;
    while (before == 0) {
        must(synth_seat_tick(&reader.seat, GAUGE, 0, &before), "tick");
    }
    seen[TICKED] = words[TICKED];
    while (count == 0) {
        must(synth_seat_due(&reader.seat, alarms, ROOM, &count), "due");
    }
    seen[ALARM] = words[ALARM];
}

/* The reader holds the other element already. */
static void read_elements(uint64_t *seen)
{
    uint32_t signals = 0, ticket = 0;
    bool parked = false;
    while (synth_hand_try_next(&reader.hand, NULL, NULL) != SYNTH_OK) {
        sched_yield();
    }
    seen[MOVED] = words[MOVED];
    while (synth_hand_try_deliver(&reader.hand, OTHER, &signals, NULL) != SYNTH_OK || signals == 0) {
        sched_yield();
    }
    seen[SIGNALLED] = words[SIGNALLED];
    while (synth_hand_try_park(&reader.hand, OTHER, &parked, NULL) != SYNTH_OK || !parked) {
        sched_yield();
    }
    seen[STOPPED] = words[STOPPED];
    while (ticket == 0) {
        must(synth_hand_ticket(&reader.hand, WAIT, &ticket), "ticket");
    }
    seen[NOTIFIED] = words[NOTIFIED];
}

static void read_all(uint64_t *seen)
{
    uint64_t item;
    uint8_t bytes[2];
    seen[BATCH_ITEM] = *take_from_batch();
    seen[QUEUE_ITEM] = *take_from_queue();
    while (synth_line_pop(&output, NULL) != SYNTH_OK) {
        sched_yield();
    }
    seen[BYTE] = words[BYTE];
    while (synth_line_pop_some(&output, bytes, 2, NULL) != SYNTH_OK) {
        sched_yield();
    }
    seen[RUN] = words[RUN];
    run_notes();
    seen[CHAINED] = words[CHAINED];
    read_meters(seen);
    read_elements(seen);
    while (synth_batch_try_take(&reader.batch, &item, 1, NULL, NULL) != SYNTH_CLOSED) {
        sched_yield();
    }
    seen[SHUT] = words[SHUT];
}

/* New objects, with the reader running notes, an element in the hand of each, and no other. */
static void make_all(void)
{
    uint16_t note;
    must(synth_batch_new(PLACES, &reader.batch), "new");
    must(synth_batch_split(&reader.batch, &writer.batch), "split");
    must(synth_queue_new(PLACES, 0, &reader.queue), "new");
    must(synth_queue_split(&reader.queue, &writer.queue), "split");
    must(synth_line_new(PLACES, &input, &output), "new");
    must(synth_chain_new(0, &reader.chain), "new");
    must(synth_chain_split(&reader.chain, &writer.chain), "split");
    if (synth_chain_try_chain(&reader.chain, 0, NULL) != SYNTH_RUN ||
        synth_chain_next(&reader.chain, &note) != SYNTH_NOTE) {
        must(SYNTH_NOT_RUNNING, "chain");
    }
    must(synth_seat_new(0, &reader.seat), "new");
    must(synth_seat_split(&reader.seat, &writer.seat), "split");
    must(synth_hand_new(0, &reader.hand), "new");
    must(synth_hand_split(&reader.hand, 0, &writer.hand), "split");
    must(synth_hand_try_free(&writer.hand, NULL, NULL), "element 0");
    must(synth_hand_try_free(&reader.hand, NULL, NULL), "element 1");
    has_chained = 0;
}

static void free_all(void)
{
    must(synth_batch_free(&reader.batch), "free");
    must(synth_batch_free(&writer.batch), "free");
    must(synth_queue_free(&reader.queue), "free");
    must(synth_queue_free(&writer.queue), "free");
    must(synth_line_finish(&input, &output, NULL), "finish");
    must(synth_chain_free(&reader.chain), "free");
    must(synth_chain_free(&writer.chain), "free");
    must(synth_seat_free(&reader.seat), "free");
    must(synth_seat_free(&writer.seat), "free");
    must(synth_hand_free(&reader.hand), "free");
    must(synth_hand_free(&writer.hand), "free");
}

int main(int number, char **arguments)
{
    uint64_t rounds = number > 1 ? strtoull(arguments[1], NULL, 10) : 200, faults = 0;
    for (uint64_t round = 1; round <= rounds; round++) {
        uint64_t seen[12] = {0};
        pthread_t thread;
        make_all();
        must(pthread_create(&thread, NULL, write_all, &round), "a thread");
        read_all(seen);
        for (int kind = BATCH_ITEM; kind <= SHUT; kind++) {
            faults += seen[kind] != round;
        }
        must(pthread_join(thread, NULL), "the end of a thread");
        free_all();
    }
    printf("orders: %llu rounds, %llu faults\n", (unsigned long long)rounds, (unsigned long long)faults);
    return faults != 0;
}
