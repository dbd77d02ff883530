/*
 * No queue: a line is copied into an array and out of it again, by one thread. What this takes is in every other figure
 * of one thread too, since the items are written and compared here as well.
 */
#include "measure.h"
#include <string.h>

static uint64_t places[PLACES];
static size_t held;

static bool make_queue(unsigned ends)
{
    (void)ends;
    held = 0;
    return true;
}

static void drop_queue(void)
{
}

static size_t put_some(unsigned end, const uint64_t *items, size_t count)
{
    (void)end;
    memcpy(places, items, count * sizeof *items);
    held = count;
    __asm__ volatile("" ::: "memory");
    return count;
}

static size_t take_some(unsigned end, uint64_t *items, size_t most)
{
    (void)end;
    size_t count = held < most ? held : most;
    memcpy(items, places, count * sizeof *items);
    held = 0;
    __asm__ volatile("" ::: "memory");
    return count;
}

int main(int count, char **words)
{
    return measure(count, words, 0);
}
