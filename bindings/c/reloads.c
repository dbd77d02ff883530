/*
 * A program that opens a shared object with a copy of the library, closes it and opens it again, as a host of plugins
 * does that loads one anew. An object that the copy made before is another one to a join than those that it makes
 * after, also if the copy is at the same address again. Prints one line. Status 1: it isn't so.
 */
#include "rows.h"
#include "synthesis.h"
#include <dlfcn.h>
#include <string.h>

enum { LOADS = 20, MADE = 3 };

/* The calls of the copy that is open. */
static struct {
    synth_code (*new_batch)(size_t, struct synth_batch *);
    synth_code (*split)(struct synth_batch *, struct synth_batch *);
    synth_code (*join)(struct synth_batch *, struct synth_batch *);
    synth_code (*free)(struct synth_batch *);
} there;

/* A pointer to a function, of the symbol of the shared object. */
static void find(void *object, const char *symbol, void *function)
{
    void *found = dlsym(object, symbol);
    ROW(found != NULL, true);
    memcpy(function, &found, sizeof found);
}

static void *open_copy(void)
{
    void *object = dlopen(COPY, RTLD_NOW | RTLD_LOCAL);
    if (object == NULL) {
        fprintf(stderr, "reloads: %s\n", dlerror());
        return NULL;
    }
    find(object, "synth_batch_new", &there.new_batch);
    find(object, "synth_batch_split", &there.split);
    find(object, "synth_batch_join", &there.join);
    find(object, "synth_batch_free", &there.free);
    return object;
}

/* The first end of each object, and one that was split off it. So the first one hasn't the whole, as a join looks. */
static struct synth_batch before[LOADS * MADE], rest[LOADS * MADE];

/* Makes a few objects, and joins a part of each to the objects of all earlier loads. */
static void make_more(int load)
{
    for (int i = load * MADE; i < (load + 1) * MADE; i++) {
        struct synth_batch part = SYNTH_BATCH_INIT;
        ROW(there.new_batch(8, &before[i]), SYNTH_OK);
        ROW(there.split(&before[i], &rest[i]), SYNTH_OK);
        ROW(there.split(&before[i], &part), SYNTH_OK);
        for (int k = 0; k < i; k++) {
            ROW(there.join(&before[k], &part), SYNTH_OTHER_OBJECT);
        }
        ROW(there.join(&before[i], &part), SYNTH_OK);
        ROW(part.full, false);
    }
}

int main(void)
{
    for (int load = 0; load < LOADS; load++) {
        void *object = open_copy();
        if (object == NULL) {
            return 1;
        }
        make_more(load);
        if (load == LOADS - 1) {
            for (int i = 0; i < LOADS * MADE; i++) {
                ROW(there.free(&before[i]), SYNTH_OK);
                ROW(there.free(&rest[i]), SYNTH_OK);
            }
        }
        ROW(dlclose(object), 0);
        ROW(dlopen(COPY, RTLD_NOW | RTLD_NOLOAD) == NULL, true);
    }
    return rows_end("reloads");
}
