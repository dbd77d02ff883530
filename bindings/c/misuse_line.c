/*
 * What each call of a device line answers to a caller that is wrong, or that has to be refused, a row each; and that
 * a refusal changes nothing.
 */
#include "rows.h"
#include "synthesis.h"
#include <string.h>

enum { MARK = 77, MOST = 65536 };

static struct synth_line_in none_in;
static struct synth_line_out none_out;
static struct synth_line_totals totals;
static uint8_t byte;
static uint8_t bytes[3];
static size_t count;

static void set_marks(void)
{
    byte = MARK;
    count = MARK;
    memset(bytes, MARK, sizeof bytes);
    memset(&totals, 5, sizeof totals);
}

static void marks_stand(void)
{
    ROW(byte, MARK);
    ROW(count, MARK);
    ROW(bytes[0] == MARK && bytes[1] == MARK && bytes[2] == MARK, true);
    ROW(totals.sent == totals.left && totals.sent % 256 == 5, true);
}

static void empty_handles(void)
{
    struct synth_line_in input = SYNTH_LINE_IN_INIT;
    struct synth_line_out output = SYNTH_LINE_OUT_INIT;
    set_marks();
    ROW(synth_line_new(4, &input, &output), SYNTH_OK);
    ROW(synth_line_push(&none_in, 1), SYNTH_EMPTY_HANDLE);
    ROW(synth_line_push_some(&none_in, bytes, 3, &count), SYNTH_EMPTY_HANDLE);
    ROW(synth_line_push_some(&none_in, NULL, 0, &count), SYNTH_EMPTY_HANDLE);
    ROW(synth_line_pop(&none_out, &byte), SYNTH_EMPTY_HANDLE);
    ROW(synth_line_pop_some(&none_out, bytes, 3, &count), SYNTH_EMPTY_HANDLE);
    ROW(synth_line_pop_some(&none_out, NULL, 0, &count), SYNTH_EMPTY_HANDLE);
    ROW(synth_line_finish(&none_in, &none_out, &totals), SYNTH_EMPTY_HANDLE);
    ROW(synth_line_finish(&input, &none_out, &totals), SYNTH_EMPTY_HANDLE);
    ROW(synth_line_finish(&none_in, &output, &totals), SYNTH_EMPTY_HANDLE);
    ROW(synth_line_free_in(&none_in), SYNTH_EMPTY_HANDLE);
    ROW(synth_line_free_out(&none_out), SYNTH_EMPTY_HANDLE);
    marks_stand();
    ROW(input.full && output.full, true);
    ROW(synth_line_finish(&input, &output, &totals), SYNTH_OK);
    ROW(input.full || output.full, false);
    ROW(synth_line_finish(&input, &output, &totals), SYNTH_EMPTY_HANDLE);
}

static void full_handles(void)
{
    struct synth_line_in input = SYNTH_LINE_IN_INIT, other_input = SYNTH_LINE_IN_INIT;
    struct synth_line_out output = SYNTH_LINE_OUT_INIT, other_output = SYNTH_LINE_OUT_INIT;
    ROW(synth_line_new(4, &input, &output), SYNTH_OK);
    ROW(synth_line_new(4, &input, &other_output), SYNTH_FULL_HANDLE);
    ROW(synth_line_new(4, &other_input, &output), SYNTH_FULL_HANDLE);
    ROW(synth_line_new(0, &input, &output), SYNTH_FULL_HANDLE);
    ROW(other_input.full || other_output.full, false);
    ROW(synth_line_new(4, &other_input, &other_output), SYNTH_OK);
    set_marks();
    ROW(synth_line_finish(&input, &other_output, &totals), SYNTH_OTHER_OBJECT);
    ROW(synth_line_finish(&other_input, &output, &totals), SYNTH_OTHER_OBJECT);
    marks_stand();
    ROW(synth_line_push(&other_input, 9), SYNTH_OK);
    ROW(synth_line_pop(&output, &byte), SYNTH_EMPTY);
    ROW(synth_line_pop(&other_output, &byte), SYNTH_OK);
    ROW(byte, 9);
    ROW(synth_line_finish(&other_input, &other_output, &totals), SYNTH_OK);
    ROW(synth_line_finish(&input, &output, &totals), SYNTH_OK);
}

static void bad_numbers(void)
{
    static const size_t wrong[] = {0, MOST + 1, SIZE_MAX};
    struct synth_line_in input = SYNTH_LINE_IN_INIT;
    struct synth_line_out output = SYNTH_LINE_OUT_INIT;
    for (size_t i = 0; i < sizeof wrong / sizeof *wrong; i++) {
        ROW(synth_line_new(wrong[i], &input, &output), SYNTH_BAD_NUMBER);
        ROW(input.full || output.full, false);
    }
    ROW(synth_line_new(MOST, &input, &output), SYNTH_OK);
    ROW(synth_line_finish(&input, &output, &totals), SYNTH_OK);
}

/* A line that is full, and one that is empty. */
static void refused(void)
{
    struct synth_line_in input = SYNTH_LINE_IN_INIT;
    struct synth_line_out output = SYNTH_LINE_OUT_INIT;
    ROW(synth_line_new(2, &input, &output), SYNTH_OK);
    byte = MARK;
    ROW(synth_line_pop(&output, &byte), SYNTH_EMPTY);
    ROW(byte, MARK);
    ROW(synth_line_push(&input, 0), SYNTH_OK);
    ROW(synth_line_push(&input, 255), SYNTH_OK);
    ROW(synth_line_push(&input, 3), SYNTH_FULL);
    ROW(synth_line_pop(&output, &byte), SYNTH_OK);
    ROW(byte, 0);
    ROW(synth_line_push(&input, 4), SYNTH_OK);
    ROW(synth_line_pop(&output, &byte), SYNTH_OK);
    ROW(byte, 255);
    ROW(synth_line_finish(&input, &output, &totals), SYNTH_OK);
    ROW(totals.sent == 3 && totals.received == 2 && totals.left == 1, true);
}

/* Runs of bytes: as many as fit, in their order, also from the last place of the line to its first. */
static void runs(void)
{
    struct synth_line_in input = SYNTH_LINE_IN_INIT;
    struct synth_line_out output = SYNTH_LINE_OUT_INIT;
    const uint8_t six[] = {1, 2, 3, 4, 5, 6};
    ROW(synth_line_new(4, &input, &output), SYNTH_OK);
    set_marks();
    ROW(synth_line_pop_some(&output, bytes, 3, &count), SYNTH_EMPTY);
    ROW(synth_line_pop_some(&output, NULL, 0, &count), SYNTH_SHORT_BUFFER);
    ROW(synth_line_push_some(&input, NULL, 0, &count), SYNTH_NO_ITEMS);
    marks_stand();
    ROW(synth_line_push_some(&input, six, 3, &count), SYNTH_OK);
    ROW(count, 3);
    ROW(synth_line_push_some(&input, six + 3, 3, &count), SYNTH_OK);
    ROW(count, 1);
    set_marks();
    ROW(synth_line_push_some(&input, six + 4, 2, &count), SYNTH_FULL);
    ROW(synth_line_push_some(&input, NULL, 0, &count), SYNTH_NO_ITEMS);
    marks_stand();
    ROW(synth_line_pop_some(&output, bytes, 2, &count), SYNTH_OK);
    ROW(count == 2 && bytes[0] == 1 && bytes[1] == 2 && bytes[2] == MARK, true);
    ROW(synth_line_push_some(&input, six + 4, 2, &count), SYNTH_OK);
    ROW(count, 2);
    ROW(synth_line_pop_some(&output, bytes, 3, &count), SYNTH_OK);
    ROW(count == 3 && bytes[0] == 3 && bytes[1] == 4 && bytes[2] == 5, true);
    ROW(synth_line_pop_some(&output, bytes, 3, &count), SYNTH_OK);
    ROW(count == 1 && bytes[0] == 6 && bytes[1] == 4 && bytes[2] == 5, true);
    ROW(synth_line_push(&input, 9), SYNTH_OK);
    ROW(synth_line_finish(&input, &output, &totals), SYNTH_OK);
    ROW(totals.sent == 7 && totals.received == 6 && totals.left == 1, true);
}

/* One half that was freed: the other goes on. */
static void freed_handles(void)
{
    struct synth_line_in input = SYNTH_LINE_IN_INIT;
    struct synth_line_out output = SYNTH_LINE_OUT_INIT;
    ROW(synth_line_new(1, &input, &output), SYNTH_OK);
    ROW(synth_line_free_out(&output), SYNTH_OK);
    ROW(synth_line_push(&input, 1), SYNTH_OK);
    ROW(synth_line_push(&input, 1), SYNTH_FULL);
    ROW(synth_line_finish(&input, &output, &totals), SYNTH_EMPTY_HANDLE);
    ROW(synth_line_free_in(&input), SYNTH_OK);
    ROW(synth_line_new(1, &input, &output), SYNTH_OK);
    ROW(synth_line_push(&input, 6), SYNTH_OK);
    ROW(synth_line_free_in(&input), SYNTH_OK);
    ROW(synth_line_pop(&output, &byte), SYNTH_OK);
    ROW(byte, 6);
    ROW(synth_line_pop(&output, &byte), SYNTH_EMPTY);
    ROW(synth_line_free_out(&output), SYNTH_OK);
}

int main(void)
{
    empty_handles();
    full_handles();
    bad_numbers();
    refused();
    runs();
    freed_handles();
    return rows_end("misuse_line");
}
