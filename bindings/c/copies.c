/*
 * Two copies of the library in one process: that of this program, and one in a shared object, which it is built with
 * the path of. A handle of the one is of another object to the other. Prints one line. Status 1: it isn't.
 */
#include "rows.h"
#include "synthesis.h"
#include <dlfcn.h>
#include <string.h>

/* The calls of the other copy. */
static struct {
    synth_code (*new_batch)(size_t, struct synth_batch *);
    synth_code (*split)(struct synth_batch *, struct synth_batch *);
    synth_code (*join)(struct synth_batch *, struct synth_batch *);
    synth_code (*free)(struct synth_batch *);
    const char *(*name)(synth_code);
} there;

/* A pointer to a function, of the symbol of the shared object. */
static void find(void *object, const char *symbol, void *function)
{
    void *found = dlsym(object, symbol);
    ROW(found != NULL, true);
    memcpy(function, &found, sizeof found);
}

static void *open_copy(void)
{
    void *object = dlopen(COPY, RTLD_NOW | RTLD_LOCAL);
    if (object == NULL) {
        fprintf(stderr, "copies: %s\n", dlerror());
        return NULL;
    }
    find(object, "synth_batch_new", &there.new_batch);
    find(object, "synth_batch_split", &there.split);
    find(object, "synth_batch_join", &there.join);
    find(object, "synth_batch_free", &there.free);
    find(object, "synth_code_name", &there.name);
    return object;
}

/* Each object that the one copy makes has a mark that none of the other has, whichever comes first. */
static void join_foreign_handles(void)
{
    struct synth_batch here = SYNTH_BATCH_INIT, foreign = SYNTH_BATCH_INIT, part = SYNTH_BATCH_INIT;
    for (int i = 0; i < 100; i++) {
        ROW(synth_batch_new(8, &here), SYNTH_OK);
        ROW(there.new_batch(8, &foreign), SYNTH_OK);
        ROW(synth_batch_join(&here, &foreign), SYNTH_OTHER_OBJECT);
        ROW(there.join(&here, &foreign), SYNTH_OTHER_OBJECT);
        ROW(synth_batch_join(&foreign, &here), SYNTH_OTHER_OBJECT);
        ROW(there.split(&foreign, &part), SYNTH_OK);
        ROW(synth_batch_join(&here, &part), SYNTH_OTHER_OBJECT);
        ROW(here.full && foreign.full && part.full, true);
        ROW(there.join(&foreign, &part), SYNTH_OK);
        ROW(there.free(&foreign), SYNTH_OK);
        ROW(synth_batch_free(&here), SYNTH_OK);
        if (i % 3 == 0) {
            ROW(synth_batch_new(8, &here), SYNTH_OK);
            ROW(synth_batch_free(&here), SYNTH_OK);
        }
    }
}

int main(void)
{
    void *object = open_copy();
    if (object == NULL) {
        return 1;
    }
    ROW(there.new_batch != synth_batch_new && strcmp(there.name(SYNTH_OTHER_OBJECT), "SYNTH_OTHER_OBJECT") == 0, true);
    join_foreign_handles();
    ROW(dlclose(object), 0);
    return rows_end("copies");
}
