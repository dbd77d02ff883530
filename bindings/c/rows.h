/*
 * Rows of a test: each compares one answer with the one that it has to be. A row that differs is reported on standard
 * error, and the status that `rows_end` gives is then 1.
 */
#ifndef ROWS_H
#define ROWS_H
#include <stdio.h>

static int rows_seen;
static int rows_at_fault;

static void row(const char *file, int line, const char *call, long long have, long long want)
{
    rows_seen++;
    if (have != want) {
        rows_at_fault++;
        fprintf(stderr, "%s:%d: %s: %lld and not %lld\n", file, line, call, have, want);
    }
}

/* The call, or the value, is this one. */
#define ROW(call, want) row(__FILE__, __LINE__, #call, (long long)(call), (long long)(want))

static int rows_end(const char *name)
{
    printf("%s: %d rows, %d at fault\n", name, rows_seen, rows_at_fault);
    return rows_at_fault != 0;
}
#endif
