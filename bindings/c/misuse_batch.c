/*
 * What each call of a batch queue answers to a caller that is wrong, or that has to be refused, a row each; and that a
 * refusal changes nothing but what it reports.
 */
#include "rows.h"
#include "synthesis.h"
#include <string.h>

enum { SPLITS = 64, PLACES = 8 };

static struct synth_batch none;
static struct synth_batch_totals closed;
static struct synth_batch_status status;
static struct synth_positions at;
static uint64_t items[PLACES + 1], buffer[PLACES];
static size_t count;
static uint64_t len, tail;

/* The code of a put, with the positions that it reports. */
static void is_put(synth_code have, synth_code code, uint64_t head, uint64_t oldest)
{
    ROW(have, code);
    ROW(at.head, head);
    ROW(at.tail, oldest);
}

/* The code of a taking, with the position that it reports. */
static void is_taken(synth_code have, synth_code code, uint64_t found)
{
    ROW(have, code);
    ROW(tail, found);
    tail = 94;
}

/* Nothing was written by the refused calls since these were set. */
static void set_marks(void)
{
    at.head = 97;
    at.tail = 96;
    tail = 94;
    count = 98;
    len = 95;
    memset(buffer, 7, sizeof buffer);
    memset(&closed, 5, sizeof closed);
}

static void marks_stand(void)
{
    ROW(at.head, 97);
    ROW(at.tail, 96);
    ROW(tail, 94);
    ROW(count, 98);
    ROW(len, 95);
    ROW(buffer[0], 0x0707070707070707);
    ROW(buffer[PLACES - 1], 0x0707070707070707);
    ROW(closed.put, 0x0505050505050505);
    ROW(closed.left, 0x0505050505050505);
}

/* Each call on an empty handle. */
static void empty_handles(void)
{
    struct synth_batch full = SYNTH_BATCH_INIT, other = SYNTH_BATCH_INIT;
    set_marks();
    ROW(synth_batch_new(PLACES, &full), SYNTH_OK);
    ROW(synth_batch_split(&none, &other), SYNTH_EMPTY_HANDLE);
    ROW(synth_batch_split(&none, &full), SYNTH_EMPTY_HANDLE);
    ROW(other.full, false);
    ROW(synth_batch_join(&none, &full), SYNTH_EMPTY_HANDLE);
    ROW(synth_batch_join(&full, &none), SYNTH_EMPTY_HANDLE);
    ROW(synth_batch_join(&none, &other), SYNTH_EMPTY_HANDLE);
    ROW(synth_batch_try_put(&none, items, 1, &at), SYNTH_EMPTY_HANDLE);
    ROW(synth_batch_try_put(&none, NULL, 0, &at), SYNTH_EMPTY_HANDLE);
    ROW(synth_batch_try_put_some(&none, items, 1, &count, &at), SYNTH_EMPTY_HANDLE);
    ROW(synth_batch_try_take(&none, buffer, PLACES, &count, &tail), SYNTH_EMPTY_HANDLE);
    ROW(synth_batch_try_take_some(&none, buffer, PLACES, &count, &tail), SYNTH_EMPTY_HANDLE);
    ROW(synth_batch_put(&none, items, 1, 9), SYNTH_EMPTY_HANDLE);
    ROW(synth_batch_put_some(&none, items, 1, 9, &count), SYNTH_EMPTY_HANDLE);
    ROW(synth_batch_take(&none, buffer, PLACES, 9, &count), SYNTH_EMPTY_HANDLE);
    ROW(synth_batch_take_some(&none, buffer, PLACES, 9, &count), SYNTH_EMPTY_HANDLE);
    ROW(synth_batch_abandon(&none, buffer, PLACES, &count), SYNTH_EMPTY_HANDLE);
    ROW(synth_batch_len(&none, &len), SYNTH_EMPTY_HANDLE);
    ROW(synth_batch_look(&none, NULL), SYNTH_EMPTY_HANDLE);
    ROW(synth_batch_try_take_one(&none, buffer, &tail), SYNTH_EMPTY_HANDLE);
    ROW(synth_batch_capacity(&none, &count), SYNTH_EMPTY_HANDLE);
    ROW(synth_batch_shut(&none), SYNTH_EMPTY_HANDLE);
    ROW(synth_batch_finish(&none, buffer, PLACES, &closed), SYNTH_EMPTY_HANDLE);
    ROW(synth_batch_free(&none), SYNTH_EMPTY_HANDLE);
    ROW(none.full, false);
    marks_stand();
    ROW(full.full, true);
    ROW(synth_batch_free(&full), SYNTH_OK);
    ROW(full.full, false);
    ROW(synth_batch_free(&full), SYNTH_EMPTY_HANDLE);
}

/* Handles that are full, or are of two queues. */
static void full_handles(void)
{
    struct synth_batch a = SYNTH_BATCH_INIT, b = SYNTH_BATCH_INIT, other = SYNTH_BATCH_INIT;
    ROW(synth_batch_new(PLACES, &a), SYNTH_OK);
    ROW(synth_batch_new(PLACES, &a), SYNTH_FULL_HANDLE);
    ROW(synth_batch_new(PLACES + 1, &a), SYNTH_FULL_HANDLE);
    ROW(synth_batch_split(&a, &b), SYNTH_OK);
    ROW(synth_batch_split(&a, &b), SYNTH_FULL_HANDLE);
    ROW(synth_batch_new(PLACES, &other), SYNTH_OK);
    ROW(synth_batch_join(&a, &other), SYNTH_OTHER_OBJECT);
    ROW(synth_batch_join(&other, &a), SYNTH_OTHER_OBJECT);
    ROW(a.full && b.full && other.full, true);
    ROW(synth_batch_finish(&other, buffer, PLACES, &closed), SYNTH_OK);
    ROW(synth_batch_join(&a, &b), SYNTH_OK);
    ROW(b.full, false);
    ROW(synth_batch_join(&a, &b), SYNTH_EMPTY_HANDLE);
    ROW(synth_batch_finish(&a, buffer, PLACES, &closed), SYNTH_OK);
    ROW(synth_batch_finish(&a, buffer, PLACES, &closed), SYNTH_EMPTY_HANDLE);
}

/* Items taken one by one, and what a look finds after each. */
static void one_by_one(void)
{
    struct synth_batch queue = SYNTH_BATCH_INIT;
    ROW(synth_batch_new(PLACES, &queue), SYNTH_OK);
    ROW(synth_batch_look(&queue, &status), SYNTH_OK);
    ROW(status.tail == 0 && status.published == 0 && status.head == 0 && !status.shut, true);
    ROW(synth_batch_try_put(&queue, items, 2, NULL), SYNTH_OK);
    ROW(synth_batch_try_take_one(&queue, buffer, NULL), SYNTH_OK);
    ROW(buffer[0], items[0]);
    ROW(synth_batch_look(&queue, &status), SYNTH_OK);
    ROW(status.tail == 1 && status.published == 2 && status.head == 2 && !status.shut, true);
    ROW(synth_batch_try_take_one(&queue, NULL, NULL), SYNTH_OK);
    ROW(synth_batch_try_take_one(&queue, buffer, &tail), SYNTH_EMPTY);
    ROW(tail, 2);
    ROW(synth_batch_finish(&queue, buffer, PLACES, &closed), SYNTH_OK);
    ROW(closed.put == 2 && closed.taken == 2 && closed.left == 0, true);
}

/* Numbers of places that a queue can have, and that it can't. */
static void numbers_of_places(void)
{
    static const size_t wrong[] = {0, 3, 5, 7, 1000, 16777215, 16777217, 33554432, SIZE_MAX};
    struct synth_batch queue = SYNTH_BATCH_INIT;
    for (size_t i = 0; i < sizeof wrong / sizeof *wrong; i++) {
        ROW(synth_batch_new(wrong[i], &queue), SYNTH_BAD_NUMBER);
        ROW(queue.full, false);
    }
    for (size_t places = 1; places <= 65536; places *= 2) {
        ROW(synth_batch_new(places, &queue), SYNTH_OK);
        ROW(synth_batch_capacity(&queue, &count), SYNTH_OK);
        ROW(count, places);
        ROW(synth_batch_free(&queue), SYNTH_OK);
    }
}

/* Puts: the refusals in their order. */
static void refused_puts(void)
{
    struct synth_batch queue = SYNTH_BATCH_INIT;
    ROW(synth_batch_new(PLACES, &queue), SYNTH_OK);
    set_marks();
    ROW(synth_batch_try_put(&queue, NULL, 0, &at), SYNTH_NO_ITEMS);
    ROW(synth_batch_try_put(&queue, items, PLACES + 1, &at), SYNTH_TOO_LONG);
    ROW(synth_batch_try_put_some(&queue, NULL, 0, &count, &at), SYNTH_NO_ITEMS);
    marks_stand();
    is_put(synth_batch_try_put(&queue, items, 3, &at), SYNTH_OK, 0, 0);
    is_put(synth_batch_try_put(&queue, items, PLACES - 2, &at), SYNTH_FULL, 3, 0);
    is_put(synth_batch_try_put_some(&queue, items, PLACES + 1, &count, &at), SYNTH_OK, 3, 0);
    ROW(count, PLACES - 3);
    count = 98;
    is_put(synth_batch_try_put(&queue, items, 1, &at), SYNTH_FULL, PLACES, 0);
    is_put(synth_batch_try_put_some(&queue, items, 2, &count, &at), SYNTH_FULL, PLACES, 0);
    ROW(count, 98);
    ROW(synth_batch_len(&queue, &len), SYNTH_OK);
    ROW(len, PLACES);
    ROW(synth_batch_look(&queue, &status), SYNTH_OK);
    ROW(status.tail == 0 && status.published == PLACES && status.head == PLACES && !status.shut, true);
    ROW(synth_batch_shut(&queue), SYNTH_OK);
    ROW(synth_batch_shut(&queue), SYNTH_CLOSED);
    ROW(synth_batch_look(&queue, &status), SYNTH_OK);
    ROW(status.tail == 0 && status.head == PLACES && status.shut, true);
    set_marks();
    ROW(synth_batch_try_put(&queue, items, 1, &at), SYNTH_CLOSED);
    ROW(synth_batch_try_put_some(&queue, items, 1, &count, &at), SYNTH_CLOSED);
    ROW(synth_batch_try_put(&queue, NULL, 0, &at), SYNTH_NO_ITEMS);
    ROW(synth_batch_try_put(&queue, items, PLACES + 1, &at), SYNTH_TOO_LONG);
    marks_stand();
    ROW(synth_batch_finish(&queue, buffer, PLACES, &closed), SYNTH_OK);
    ROW(closed.put == PLACES && closed.taken == 0 && closed.left == PLACES, true);
}

/* Takings: batches that don't fit, which lose no item, and the refusals. */
static void refused_takings(void)
{
    struct synth_batch queue = SYNTH_BATCH_INIT;
    const uint64_t put[] = {1, 2, 3, 4, 5};
    ROW(synth_batch_new(PLACES, &queue), SYNTH_OK);
    set_marks();
    is_taken(synth_batch_try_take(&queue, buffer, PLACES, &count, &tail), SYNTH_EMPTY, 0);
    is_taken(synth_batch_try_take_some(&queue, NULL, 0, &count, &tail), SYNTH_EMPTY, 0);
    ROW(count == 98 && buffer[0] == 0x0707070707070707, true);
    ROW(synth_batch_try_put(&queue, put, 3, &at), SYNTH_OK);
    ROW(synth_batch_try_put(&queue, put + 3, 2, &at), SYNTH_OK);
    is_taken(synth_batch_try_take(&queue, buffer, 2, &count, &tail), SYNTH_SHORT_BUFFER, 0);
    ROW(count == 3 && buffer[0] == 0x0707070707070707, true);
    is_taken(synth_batch_try_take(&queue, NULL, 0, &count, &tail), SYNTH_SHORT_BUFFER, 0);
    is_taken(synth_batch_try_take_some(&queue, NULL, 0, &count, &tail), SYNTH_SHORT_BUFFER, 0);
    ROW(synth_batch_finish(&queue, buffer, PLACES - 1, &closed), SYNTH_SHORT_BUFFER);
    ROW(synth_batch_finish(&queue, NULL, 0, &closed), SYNTH_SHORT_BUFFER);
    /* Whole batches alone, as many as fit. */
    ROW(synth_batch_try_take(&queue, buffer, 4, &count, &tail), SYNTH_OK);
    ROW(count == 3 && buffer[0] == 1 && buffer[2] == 3 && buffer[3] == 0x0707070707070707, true);
    /* The first item of a batch, and then the rest of it. */
    ROW(synth_batch_try_take_some(&queue, buffer, 1, &count, &tail), SYNTH_OK);
    ROW(count == 1 && buffer[0] == 4, true);
    ROW(synth_batch_try_take(&queue, buffer, PLACES, &count, &tail), SYNTH_OK);
    ROW(count == 1 && buffer[0] == 5, true);
    is_taken(synth_batch_try_take(&queue, buffer, PLACES, &count, &tail), SYNTH_EMPTY, 5);
    ROW(synth_batch_try_put(&queue, put, 2, &at), SYNTH_OK);
    ROW(synth_batch_shut(&queue), SYNTH_OK);
    is_taken(synth_batch_try_take(&queue, buffer, 1, &count, &tail), SYNTH_SHORT_BUFFER, 5);
    ROW(synth_batch_try_take_some(&queue, buffer, PLACES, &count, &tail), SYNTH_OK);
    ROW(count == 2 && buffer[0] == 1 && buffer[1] == 2, true);
    set_marks();
    ROW(synth_batch_try_take(&queue, buffer, PLACES, &count, &tail), SYNTH_CLOSED);
    ROW(synth_batch_try_take_some(&queue, buffer, 0, &count, &tail), SYNTH_CLOSED);
    marks_stand();
    ROW(synth_batch_finish(&queue, buffer, PLACES, &closed), SYNTH_OK);
    ROW(closed.put == 7 && closed.taken == 7 && closed.left == 0, true);
}

/* The calls that make a try again answer what the try does, and set what it sets. */
static void repeated_tries(void)
{
    struct synth_batch queue = SYNTH_BATCH_INIT;
    const uint64_t put[] = {1, 2, 3, 4, 5};
    ROW(synth_batch_new(PLACES, &queue), SYNTH_OK);
    set_marks();
    ROW(synth_batch_put(&queue, items, PLACES + 1, 2), SYNTH_TOO_LONG);
    ROW(synth_batch_put_some(&queue, items, 0, 2, &count), SYNTH_NO_ITEMS);
    ROW(synth_batch_take(&queue, buffer, PLACES, 2, &count), SYNTH_EMPTY);
    ROW(synth_batch_take_some(&queue, buffer, PLACES, 2, &count), SYNTH_EMPTY);
    marks_stand();
    ROW(synth_batch_put(&queue, put, 5, 2), SYNTH_OK);
    ROW(synth_batch_put_some(&queue, put, 5, 2, &count), SYNTH_OK);
    ROW(count, PLACES - 5);
    ROW(synth_batch_put_some(&queue, put, 5, 2, &count), SYNTH_FULL);
    ROW(synth_batch_take(&queue, buffer, 4, 2, &count), SYNTH_SHORT_BUFFER);
    ROW(count, 5);
    ROW(synth_batch_take_some(&queue, buffer, 4, 2, &count), SYNTH_OK);
    ROW(count == 4 && buffer[0] == 1 && buffer[3] == 4, true);
    ROW(synth_batch_take(&queue, buffer, PLACES, 2, &count), SYNTH_OK);
    ROW(count == 4 && buffer[0] == 5 && buffer[1] == 1, true);
    ROW(synth_batch_finish(&queue, buffer, PLACES, &closed), SYNTH_OK);
}

/* A close while other handles are full, and what is left comes back, past the last place. */
static void refused_close(void)
{
    struct synth_batch queue = SYNTH_BATCH_INIT, other = SYNTH_BATCH_INIT;
    const uint64_t put[] = {11, 12, 13, 14, 15, 16, 17, 18};
    ROW(synth_batch_new(PLACES, &queue), SYNTH_OK);
    ROW(synth_batch_split(&queue, &other), SYNTH_OK);
    ROW(synth_batch_try_put(&other, put, 6, &at), SYNTH_OK);
    ROW(synth_batch_try_take(&queue, buffer, PLACES, &count, &tail), SYNTH_OK);
    ROW(synth_batch_try_put(&other, put, 3, &at), SYNTH_OK);
    ROW(synth_batch_try_put(&other, put + 3, 2, &at), SYNTH_OK);
    set_marks();
    ROW(synth_batch_finish(&queue, buffer, PLACES, &closed), SYNTH_OPEN);
    ROW(synth_batch_finish(&queue, buffer, PLACES - 1, &closed), SYNTH_SHORT_BUFFER);
    marks_stand();
    ROW(synth_batch_join(&other, &queue), SYNTH_OK);
    ROW(synth_batch_finish(&other, buffer, PLACES, &closed), SYNTH_OK);
    ROW(other.full, false);
    ROW(closed.put == 11 && closed.taken == 6 && closed.left == 5, true);
    for (size_t i = 0; i < 5; i++) {
        ROW(buffer[i], put[i]);
    }
    ROW(buffer[5], 0x0707070707070707);
}

/* Handles that were freed and not joined: no close succeeds, the items left can be taken, and the last free ends it. */
static void freed_handles(void)
{
    const uint64_t put[] = {21, 22, 23};
    struct synth_batch queue = SYNTH_BATCH_INIT, one = SYNTH_BATCH_INIT;
    ROW(synth_batch_new(PLACES, &queue), SYNTH_OK);
    ROW(synth_batch_split(&queue, &one), SYNTH_OK);
    ROW(synth_batch_try_put(&one, put, 3, &at), SYNTH_OK);
    ROW(synth_batch_free(&one), SYNTH_OK);
    set_marks();
    ROW(synth_batch_finish(&queue, buffer, PLACES, &closed), SYNTH_OPEN);
    ROW(synth_batch_split(&queue, &one), SYNTH_OK);
    ROW(synth_batch_join(&queue, &one), SYNTH_OK);
    ROW(synth_batch_finish(&queue, buffer, PLACES, &closed), SYNTH_OPEN);
    marks_stand();
    ROW(queue.full, true);
    ROW(synth_batch_try_take(&queue, buffer, PLACES, &count, &tail), SYNTH_OK);
    ROW(count == 3 && buffer[0] == 21 && buffer[2] == 23, true);
    ROW(synth_batch_free(&queue), SYNTH_OK);
    ROW(synth_batch_finish(&queue, buffer, PLACES, &closed), SYNTH_EMPTY_HANDLE);
    /* The last handle is freed with items left. */
    ROW(synth_batch_new(PLACES, &queue), SYNTH_OK);
    ROW(synth_batch_try_put(&queue, put, 3, &at), SYNTH_OK);
    ROW(synth_batch_free(&queue), SYNTH_OK);
}

/* A handle that is split off from the one before, again and again, can't be split in the end. */
static void split_often(void)
{
    static struct synth_batch chain[SPLITS];
    int last = 0;
    ROW(synth_batch_new(PLACES, &chain[0]), SYNTH_OK);
    while (last < SPLITS - 1 && synth_batch_split(&chain[last], &chain[last + 1]) == SYNTH_OK) {
        last++;
    }
    ROW(last, 22);
    ROW(synth_batch_split(&chain[last], &chain[last + 1]), SYNTH_NO_SHARE);
    ROW(chain[last + 1].full, false);
    ROW(synth_batch_split(&chain[0], &chain[last + 1]), SYNTH_OK);
    ROW(synth_batch_join(&chain[last], &chain[last + 1]), SYNTH_OK);
    ROW(synth_batch_split(&chain[last], &chain[last + 1]), SYNTH_OK);
    for (int i = 1; i <= last + 1; i++) {
        ROW(synth_batch_join(&chain[0], &chain[i]), SYNTH_OK);
    }
    ROW(synth_batch_finish(&chain[0], buffer, PLACES, &closed), SYNTH_OK);
}

int main(void)
{
    empty_handles();
    full_handles();
    one_by_one();
    numbers_of_places();
    refused_puts();
    refused_takings();
    repeated_tries();
    refused_close();
    freed_handles();
    split_often();
    return rows_end("misuse_batch");
}
