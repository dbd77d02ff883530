/*
 * Refuses each allocation of each call of a device line in turn. The call then answers SYNTH_NO_MEMORY and leaves all
 * as it was. All other calls ask for no memory, and in the end all of it is given back.
 */
#include "refusals.h"

static struct synth_line_in input;
static struct synth_line_out output;

static synth_code new_line(void)
{
    return synth_line_new(100, &input, &output);
}

static void are_empty(void)
{
    ROW(input.full || output.full, false);
}

static void ask_for_none(void)
{
    struct synth_line_totals totals;
    uint8_t byte = 0;
    memory_refuse(1);
    ROW(synth_line_push(&input, 5), SYNTH_OK);
    ROW(synth_line_pop(&output, &byte), SYNTH_OK);
    ROW(synth_line_pop(&output, &byte), SYNTH_EMPTY);
    ROW(synth_line_finish(&input, &output, &totals), SYNTH_OK);
    ROW(memory_asked(), 0);
    ROW(memory_taken(), 0);
    memory_refuse(0);
}

/* Halves that are freed give their memory back, the last one that of the line. */
static void free_both(void)
{
    ROW(new_line(), SYNTH_OK);
    ROW(synth_line_free_in(&input), SYNTH_OK);
    ROW(memory_taken() > 0, true);
    ROW(synth_line_free_out(&output), SYNTH_OK);
    ROW(memory_taken(), 0);
}

int main(void)
{
    refuse_each(new_line, are_empty);
    ask_for_none();
    free_both();
    return rows_end("no_memory_line");
}
