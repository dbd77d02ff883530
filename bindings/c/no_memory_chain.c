/*
 * Refuses each allocation of each call of a chain in turn. The call then answers SYNTH_NO_MEMORY and leaves all as it
 * was. All other calls ask for no memory, and in the end all of it is given back.
 */
#include "refusals.h"

static struct synth_chain last, other;

static synth_code new_chain(void)
{
    return synth_chain_new(0, &last);
}

static void is_empty(void)
{
    ROW(last.full, false);
}

static synth_code split_off(void)
{
    return synth_chain_split(&last, &other);
}

/* No handle was filled, and the chain takes a note. */
static void chains(void)
{
    uint16_t note = 1;
    ROW(other.full, false);
    ROW(synth_chain_try_chain(&last, 7, NULL), SYNTH_RUN);
    ROW(synth_chain_next(&last, &note), SYNTH_NOTE);
    ROW(note, 7);
    ROW(synth_chain_next(&last, &note), SYNTH_OK);
}

static void ask_for_none(void)
{
    struct synth_chain_totals closed;
    uint16_t note = 0;
    memory_refuse(1);
    ROW(synth_chain_try_chain(&other, 3, NULL), SYNTH_RUN);
    ROW(synth_chain_try_chain(&last, 4, NULL), SYNTH_LEFT);
    ROW(synth_chain_next(&other, &note), SYNTH_NOTE);
    ROW(synth_chain_finish(&last, &closed), SYNTH_OPEN);
    ROW(synth_chain_join(&last, &other), SYNTH_OK);
    ROW(synth_chain_next(&last, &note), SYNTH_NOTE);
    ROW(note, 4);
    ROW(synth_chain_next(&last, &note), SYNTH_OK);
    ROW(synth_chain_finish(&last, &closed), SYNTH_OK);
    ROW(memory_asked(), 0);
    ROW(memory_taken(), 0);
    memory_refuse(0);
}

/* Handles that are freed give their memory back, the last one that of the chain. A close that is refused gives none. */
static void free_all(void)
{
    struct synth_chain_totals closed;
    long taken;
    ROW(synth_chain_new(0, &last), SYNTH_OK);
    ROW(synth_chain_split(&last, &other), SYNTH_OK);
    ROW(synth_chain_free(&last), SYNTH_OK);
    taken = memory_taken();
    ROW(taken > 0, true);
    ROW(synth_chain_finish(&other, &closed), SYNTH_OPEN);
    ROW(memory_taken(), taken);
    ROW(synth_chain_free(&other), SYNTH_OK);
    ROW(memory_taken(), 0);
}

int main(void)
{
    refuse_each(new_chain, is_empty);
    refuse_each(split_off, chains);
    ask_for_none();
    free_all();
    return rows_end("no_memory_chain");
}
