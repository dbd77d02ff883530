/*
 * What each call of a claim queue answers to a caller that is wrong, or that has to be refused, a row each; and that
 * a refusal changes nothing.
 */
#include "rows.h"
#include "synthesis.h"
#include <string.h>

enum { SPLITS = 64, PLACES = 64, LARGE = 256, END_OF_LINE = 10, MARK = 97 };

static struct synth_queue none;
static struct synth_queue_totals closed;
static struct synth_queue_status status;
static uint64_t items[LARGE + 1], line[LARGE], item;
static size_t count;
static struct synth_positions at = {MARK, MARK};
static uint64_t tail = MARK;

/* The code of a put, and the positions that it reports: none but after OK and FULL, of one thread. */
static void is_put(synth_code have, synth_code code, uint64_t head, uint64_t oldest)
{
    bool reports = code == SYNTH_OK || code == SYNTH_FULL;
    ROW(have, code);
    ROW(at.head, reports ? head : (uint64_t)MARK);
    ROW(at.tail, reports ? oldest : (uint64_t)MARK);
    at.head = at.tail = MARK;
}

/* The code of a taking, and the position that it reports, or MARK if it reports none. */
static void is_taken(synth_code have, synth_code code, uint64_t found)
{
    ROW(have, code);
    ROW(tail, found);
    tail = MARK;
}

/* Nothing was written by the refused calls since these were set. */
static void set_marks(void)
{
    item = 99;
    count = 98;
    memset(line, 7, sizeof line);
    memset(&closed, 5, sizeof closed);
}

static void marks_stand(void)
{
    ROW(item, 99);
    ROW(count, 98);
    ROW(line[0], 0x0707070707070707);
    ROW(line[PLACES - 1], 0x0707070707070707);
    ROW(closed.put, 0x05050505);
    ROW(closed.left, 0x0505050505050505);
}

/* Each call on an empty handle. */
static void empty_handles(void)
{
    struct synth_queue full = SYNTH_QUEUE_INIT, other = SYNTH_QUEUE_INIT;
    set_marks();
    ROW(synth_queue_new(PLACES, 0, &full), SYNTH_OK);
    ROW(synth_queue_split(&none, &other), SYNTH_EMPTY_HANDLE);
    ROW(other.full, false);
    ROW(synth_queue_join(&none, &full), SYNTH_EMPTY_HANDLE);
    ROW(synth_queue_join(&full, &none), SYNTH_EMPTY_HANDLE);
    ROW(synth_queue_join(&none, &other), SYNTH_EMPTY_HANDLE);
    is_put(synth_queue_try_put(&none, items, 1, &at), SYNTH_EMPTY_HANDLE, 0, 0);
    is_put(synth_queue_try_put(&none, NULL, 0, &at), SYNTH_EMPTY_HANDLE, 0, 0);
    is_taken(synth_queue_try_take(&none, &item, &tail), SYNTH_EMPTY_HANDLE, MARK);
    is_taken(synth_queue_take_up_to(&none, line, LARGE, &count, &tail), SYNTH_EMPTY_HANDLE, MARK);
    is_taken(synth_queue_try_take_line(&none, line, LARGE, &count, &tail), SYNTH_EMPTY_HANDLE, MARK);
    ROW(synth_queue_put(&none, items, 1, 9), SYNTH_EMPTY_HANDLE);
    ROW(synth_queue_take(&none, &item, 9), SYNTH_EMPTY_HANDLE);
    ROW(synth_queue_abandon(&none, line, LARGE, &count), SYNTH_EMPTY_HANDLE);
    ROW(synth_queue_look(&none, NULL), SYNTH_EMPTY_HANDLE);
    ROW(synth_queue_shut(&none), SYNTH_EMPTY_HANDLE);
    ROW(synth_queue_finish(&none, line, LARGE, &closed), SYNTH_EMPTY_HANDLE);
    ROW(synth_queue_free(&none), SYNTH_EMPTY_HANDLE);
    ROW(none.full, false);
    marks_stand();
    ROW(full.full, true);
    ROW(synth_queue_free(&full), SYNTH_OK);
    ROW(full.full, false);
    ROW(synth_queue_free(&full), SYNTH_EMPTY_HANDLE);
}

/* Handles that are full, or are of two queues. */
static void full_handles(void)
{
    struct synth_queue a = SYNTH_QUEUE_INIT, b = SYNTH_QUEUE_INIT, other = SYNTH_QUEUE_INIT;
    ROW(synth_queue_new(PLACES, 0, &a), SYNTH_OK);
    ROW(synth_queue_new(PLACES, 0, &a), SYNTH_FULL_HANDLE);
    ROW(synth_queue_new(PLACES + 1, 0, &a), SYNTH_FULL_HANDLE);
    ROW(synth_queue_split(&a, &b), SYNTH_OK);
    ROW(synth_queue_split(&a, &b), SYNTH_FULL_HANDLE);
    ROW(synth_queue_new(PLACES, 0, &other), SYNTH_OK);
    ROW(synth_queue_join(&a, &other), SYNTH_OTHER_OBJECT);
    ROW(synth_queue_join(&other, &a), SYNTH_OTHER_OBJECT);
    ROW(a.full && b.full && other.full, true);
    ROW(synth_queue_finish(&other, line, LARGE, &closed), SYNTH_OK);
    ROW(synth_queue_new(LARGE, 0, &other), SYNTH_OK);
    ROW(synth_queue_join(&a, &other), SYNTH_OTHER_OBJECT);
    ROW(synth_queue_join(&a, &b), SYNTH_OK);
    ROW(b.full, false);
    ROW(synth_queue_join(&a, &b), SYNTH_EMPTY_HANDLE);
    ROW(synth_queue_finish(&other, line, LARGE, &closed), SYNTH_OK);
    ROW(synth_queue_finish(&a, line, LARGE, &closed), SYNTH_OK);
    ROW(synth_queue_finish(&a, line, LARGE, &closed), SYNTH_EMPTY_HANDLE);
}

static void bad_numbers(void)
{
    static const uint32_t wrong[] = {0, 1, 63, 65, 128, 255, 257, UINT32_MAX};
    struct synth_queue queue = SYNTH_QUEUE_INIT;
    for (size_t i = 0; i < sizeof wrong / sizeof *wrong; i++) {
        ROW(synth_queue_new(wrong[i], 0, &queue), SYNTH_BAD_NUMBER);
        ROW(queue.full, false);
    }
}

/* Puts: the refusals in their order. */
static void refused_puts(uint32_t places)
{
    struct synth_queue queue = SYNTH_QUEUE_INIT;
    ROW(synth_queue_new(places, 5, &queue), SYNTH_OK);
    is_put(synth_queue_try_put(&queue, NULL, 0, &at), SYNTH_NO_ITEMS, 0, 0);
    is_put(synth_queue_try_put(&queue, items, places + 1, &at), SYNTH_TOO_LONG, 0, 0);
    is_put(synth_queue_try_put(&queue, items, 3, &at), SYNTH_OK, 5, 0);
    is_put(synth_queue_try_put(&queue, items, places - 2, &at), SYNTH_FULL, 8, 5);
    is_put(synth_queue_try_put(&queue, items, places - 3, &at), SYNTH_OK, 8, 0);
    is_put(synth_queue_try_put(&queue, items, 1, &at), SYNTH_FULL, 5 + places, 5);
    ROW(synth_queue_look(&queue, &status), SYNTH_OK);
    ROW(status.shut, false);
    ROW(synth_queue_shut(&queue), SYNTH_OK);
    ROW(synth_queue_shut(&queue), SYNTH_CLOSED);
    ROW(synth_queue_look(&queue, &status), SYNTH_OK);
    ROW(status.head - status.tail == status.raised && status.shut, true);
    is_put(synth_queue_try_put(&queue, items, 1, &at), SYNTH_CLOSED, 0, 0);
    is_put(synth_queue_try_put(&queue, NULL, 0, &at), SYNTH_NO_ITEMS, 0, 0);
    is_put(synth_queue_try_put(&queue, items, places + 1, &at), SYNTH_TOO_LONG, 0, 0);
    ROW(synth_queue_finish(&queue, line, LARGE, &closed), SYNTH_OK);
    ROW(closed.put, places);
    ROW(closed.left, places);
}

/* The last positions: a run that fits no more, and one that does. */
static void spent_positions(void)
{
    struct synth_queue queue = SYNTH_QUEUE_INIT;
    ROW(synth_queue_new(PLACES, UINT32_MAX - 2, &queue), SYNTH_OK);
    is_put(synth_queue_try_put(&queue, items, 3, &at), SYNTH_SPENT, 0, 0);
    is_put(synth_queue_try_put(&queue, items, 2, &at), SYNTH_OK, UINT32_MAX - 2, 0);
    is_put(synth_queue_try_put(&queue, items, 1, &at), SYNTH_SPENT, 0, 0);
    is_taken(synth_queue_try_take(&queue, &item, &tail), SYNTH_OK, MARK);
    is_taken(synth_queue_try_take(&queue, &item, &tail), SYNTH_OK, MARK);
    is_taken(synth_queue_try_take(&queue, &item, &tail), SYNTH_EMPTY, UINT32_MAX);
    ROW(synth_queue_finish(&queue, line, LARGE, &closed), SYNTH_OK);
    ROW(closed.first, UINT32_MAX - 2);
    ROW(closed.put, 2);
    ROW(closed.taken, 2);

    /* Where neither positions nor room are left for a run, SPENT comes first. */
    ROW(synth_queue_new(PLACES, UINT32_MAX - 65, &queue), SYNTH_OK);
    is_put(synth_queue_try_put(&queue, items, 63, &at), SYNTH_OK, UINT32_MAX - 65, 0);
    is_put(synth_queue_try_put(&queue, items, 3, &at), SYNTH_SPENT, 0, 0);
    is_put(synth_queue_try_put(&queue, items, 2, &at), SYNTH_FULL, UINT32_MAX - 2, UINT32_MAX - 65);
    ROW(synth_queue_finish(&queue, line, LARGE, &closed), SYNTH_OK);
}

/* Takings: short buffers, which lose no item, and the refusals. */
static void refused_takings(uint32_t places)
{
    struct synth_queue queue = SYNTH_QUEUE_INIT;
    const uint64_t put[] = {1, 2, END_OF_LINE, 4};
    ROW(synth_queue_new(places, 0, &queue), SYNTH_OK);
    set_marks();
    is_taken(synth_queue_try_take(&queue, &item, &tail), SYNTH_EMPTY, 0);
    is_taken(synth_queue_take_up_to(&queue, line, 1, &count, &tail), SYNTH_EMPTY, 0);
    is_taken(synth_queue_try_take_line(&queue, line, LARGE, &count, &tail), SYNTH_EMPTY, 0);
    is_put(synth_queue_try_put(&queue, put, 4, &at), SYNTH_OK, 0, 0);
    is_taken(synth_queue_take_up_to(&queue, NULL, 0, &count, &tail), SYNTH_SHORT_BUFFER, MARK);
    is_taken(synth_queue_try_take_line(&queue, line, places - 1, &count, &tail), SYNTH_SHORT_BUFFER, MARK);
    is_taken(synth_queue_try_take_line(&queue, NULL, 0, &count, &tail), SYNTH_SHORT_BUFFER, MARK);
    ROW(synth_queue_finish(&queue, line, places - 1, &closed), SYNTH_SHORT_BUFFER);
    ROW(synth_queue_finish(&queue, NULL, 0, &closed), SYNTH_SHORT_BUFFER);
    marks_stand();
    is_taken(synth_queue_take_up_to(&queue, line, 1, &count, &tail), SYNTH_OK, 0);
    ROW(count, 1);
    ROW(line[0], 1);
    is_taken(synth_queue_try_take_line(&queue, line, places, &count, &tail), SYNTH_OK, MARK);
    ROW(count, 2);
    ROW(line[0] == 2 && line[1] == END_OF_LINE, true);
    is_put(synth_queue_try_put(&queue, put, 2, &at), SYNTH_OK, 4, 0);
    is_taken(synth_queue_take_up_to(&queue, line, 2, &count, &tail), SYNTH_OK, 0);
    ROW(count == 2 && line[0] == 4 && line[1] == 1, true);
    is_taken(synth_queue_take_up_to(&queue, line, 2, &count, &tail), SYNTH_OK, 6);
    ROW(count == 1 && line[0] == 2, true);
    is_put(synth_queue_try_put(&queue, put + 3, 1, &at), SYNTH_OK, 6, 0);
    set_marks();
    is_taken(synth_queue_try_take_line(&queue, line, places, &count, &tail), SYNTH_EMPTY, 7);
    ROW(synth_queue_shut(&queue), SYNTH_OK);
    is_taken(synth_queue_try_take_line(&queue, line, places, &count, &tail), SYNTH_EMPTY, 7);
    is_taken(synth_queue_take_up_to(&queue, line, LARGE, &count, &tail), SYNTH_OK, 0);
    ROW(count == 1 && line[0] == 4, true);
    is_taken(synth_queue_try_take_line(&queue, line, places, &count, &tail), SYNTH_CLOSED, MARK);
    is_taken(synth_queue_take_up_to(&queue, line, LARGE, &count, &tail), SYNTH_CLOSED, MARK);
    is_taken(synth_queue_try_take(&queue, &item, &tail), SYNTH_CLOSED, MARK);
    ROW(synth_queue_finish(&queue, line, places, &closed), SYNTH_OK);
}

/* The calls that make a try again answer what the try does, and set what it sets. */
static void repeated_tries(void)
{
    struct synth_queue queue = SYNTH_QUEUE_INIT;
    const uint64_t put[] = {1, 2};
    ROW(synth_queue_new(PLACES, 0, &queue), SYNTH_OK);
    set_marks();
    ROW(synth_queue_put(&queue, items, PLACES + 1, 2), SYNTH_TOO_LONG);
    ROW(synth_queue_take(&queue, &item, 2), SYNTH_EMPTY);
    marks_stand();
    ROW(synth_queue_put(&queue, put, 2, 2), SYNTH_OK);
    ROW(synth_queue_put(&queue, items, PLACES - 1, 2), SYNTH_FULL);
    ROW(synth_queue_take(&queue, &item, 2), SYNTH_OK);
    ROW(item, 1);
    ROW(synth_queue_finish(&queue, line, LARGE, &closed), SYNTH_OK);
}

/* A close while other handles are full, and what is left comes back. */
static void refused_close(void)
{
    struct synth_queue queue = SYNTH_QUEUE_INIT, other = SYNTH_QUEUE_INIT;
    const uint64_t put[] = {11, 12, 13};
    ROW(synth_queue_new(LARGE, 1, &queue), SYNTH_OK);
    ROW(synth_queue_split(&queue, &other), SYNTH_OK);
    is_put(synth_queue_try_put(&other, put, 3, &at), SYNTH_OK, 1, 0);
    set_marks();
    ROW(synth_queue_finish(&queue, line, LARGE, &closed), SYNTH_OPEN);
    ROW(synth_queue_finish(&queue, line, LARGE - 1, &closed), SYNTH_SHORT_BUFFER);
    marks_stand();
    is_taken(synth_queue_try_take(&queue, &item, &tail), SYNTH_OK, MARK);
    ROW(item, 11);
    ROW(synth_queue_join(&other, &queue), SYNTH_OK);
    ROW(synth_queue_finish(&other, line, LARGE, &closed), SYNTH_OK);
    ROW(other.full, false);
    ROW(line[0] == 12 && line[1] == 13, true);
    ROW(closed.first == 1 && closed.put == 3 && closed.taken == 1 && closed.left == 2, true);
}

/* Handles that were freed and not joined: no close succeeds, the items left can be taken, and the last free ends it. */
static void freed_handles(void)
{
    const uint64_t put[] = {21, 22, 23};
    struct synth_queue queue = SYNTH_QUEUE_INIT, one = SYNTH_QUEUE_INIT, two = SYNTH_QUEUE_INIT;
    ROW(synth_queue_new(PLACES, 0, &queue), SYNTH_OK);
    ROW(synth_queue_split(&queue, &one), SYNTH_OK);
    ROW(synth_queue_split(&one, &two), SYNTH_OK);
    is_put(synth_queue_try_put(&two, put, 3, &at), SYNTH_OK, 0, 0);
    is_taken(synth_queue_try_take(&one, &item, &tail), SYNTH_OK, MARK);
    ROW(synth_queue_free(&two), SYNTH_OK);
    set_marks();
    ROW(synth_queue_finish(&queue, line, LARGE, &closed), SYNTH_OPEN);
    ROW(synth_queue_free(&one), SYNTH_OK);
    ROW(synth_queue_finish(&queue, line, PLACES - 1, &closed), SYNTH_SHORT_BUFFER);
    ROW(synth_queue_finish(&queue, line, LARGE, &closed), SYNTH_OPEN);
    ROW(synth_queue_split(&queue, &one), SYNTH_OK);
    ROW(synth_queue_join(&queue, &one), SYNTH_OK);
    ROW(synth_queue_finish(&queue, line, LARGE, &closed), SYNTH_OPEN);
    marks_stand();
    ROW(queue.full, true);
    is_taken(synth_queue_take_up_to(&queue, line, LARGE, &count, &tail), SYNTH_OK, 3);
    ROW(count == 2 && line[0] == 22 && line[1] == 23, true);
    ROW(synth_queue_finish(&queue, line, LARGE, &closed), SYNTH_OPEN);
    ROW(synth_queue_free(&queue), SYNTH_OK);
    ROW(queue.full, false);
    ROW(synth_queue_finish(&queue, line, LARGE, &closed), SYNTH_EMPTY_HANDLE);

    /* The last handle is freed with items left. */
    ROW(synth_queue_new(PLACES, 0, &queue), SYNTH_OK);
    is_put(synth_queue_try_put(&queue, put, 3, &at), SYNTH_OK, 0, 0);
    ROW(synth_queue_free(&queue), SYNTH_OK);
}

/* A handle that is split off from the one before, again and again, can't be split in the end. */
static void split_often(void)
{
    static struct synth_queue chain[SPLITS];
    int last = 0;
    ROW(synth_queue_new(PLACES, 0, &chain[0]), SYNTH_OK);
    while (last < SPLITS - 1 && synth_queue_split(&chain[last], &chain[last + 1]) == SYNTH_OK) {
        last++;
    }
    ROW(last, 22);
    ROW(synth_queue_split(&chain[last], &chain[last + 1]), SYNTH_NO_SHARE);
    ROW(chain[last + 1].full, false);
    ROW(synth_queue_split(&chain[0], &chain[last + 1]), SYNTH_OK);
    ROW(synth_queue_join(&chain[last], &chain[last + 1]), SYNTH_OK);
    ROW(synth_queue_split(&chain[last], &chain[last + 1]), SYNTH_OK);
    for (int i = 1; i <= last + 1; i++) {
        ROW(synth_queue_join(&chain[0], &chain[i]), SYNTH_OK);
    }
    ROW(synth_queue_finish(&chain[0], line, LARGE, &closed), SYNTH_OK);
}

int main(void)
{
    empty_handles();
    full_handles();
    bad_numbers();
    refused_puts(PLACES);
    refused_puts(LARGE);
    spent_positions();
    refused_takings(PLACES);
    refused_takings(LARGE);
    repeated_tries();
    refused_close();
    freed_handles();
    split_often();
    return rows_end("misuse_queue");
}
