/* An array of 256 places and a mutex: a whole line is put, and a whole line taken, while the mutex is held. */
#define SLEEPS
#include "measure.h"

static APART pthread_mutex_t mutex = PTHREAD_MUTEX_INITIALIZER;
static APART uint64_t places[PLACES];
static uint64_t head, tail;

static bool make_queue(unsigned ends)
{
    (void)ends;
    head = 0;
    tail = 0;
    return true;
}

static void drop_queue(void)
{
}

static size_t put_some(unsigned end, const uint64_t *items, size_t count)
{
    (void)end;
    pthread_mutex_lock(&mutex);
    bool has_room = head - tail + count <= PLACES;
    for (size_t i = 0; has_room && i < count; i++) {
        places[head++ % PLACES] = items[i];
    }
    pthread_mutex_unlock(&mutex);
    return has_room ? count : 0;
}

static size_t take_some(unsigned end, uint64_t *items, size_t most)
{
    (void)end;
    pthread_mutex_lock(&mutex);
    bool has_line = head - tail >= most;
    for (size_t i = 0; has_line && i < most; i++) {
        items[i] = places[tail++ % PLACES];
    }
    pthread_mutex_unlock(&mutex);
    return has_line ? most : 0;
}

int main(int count, char **words)
{
    return measure(count, words, 2);
}
