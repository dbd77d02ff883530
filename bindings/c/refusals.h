/*
 * Refuses each allocation of a call in turn, until it succeeds. What is refused has to answer SYNTH_NO_MEMORY, take no
 * memory, and leave all as it was, at which `stands` looks.
 */
#ifndef REFUSALS_H
#define REFUSALS_H
#include "memory.h"
#include "rows.h"
#include "synthesis.h"

static void refuse_each(synth_code (*call)(void), void (*stands)(void))
{
    unsigned long number = 0;
    long taken = memory_taken();
    synth_code code;
    do {
        number++;
        memory_refuse(number);
        code = call();
        if (code != SYNTH_OK) {
            ROW(code, SYNTH_NO_MEMORY);
            ROW(memory_taken(), taken);
            stands();
        }
    } while (code != SYNTH_OK && number < 100);
    ROW(code, SYNTH_OK);
    ROW(number > 1, true);
    memory_refuse(0);
}
#endif
