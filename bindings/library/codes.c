/* The names of the codes, and what they mean. */
#include "synthesis.h"

const char *synth_code_name(synth_code code)
{
    switch ((enum synth_codes)code) {
    case SYNTH_OK:
        return "SYNTH_OK";
    case SYNTH_NO_ITEMS:
        return "SYNTH_NO_ITEMS";
    case SYNTH_TOO_LONG:
        return "SYNTH_TOO_LONG";
    case SYNTH_CLOSED:
        return "SYNTH_CLOSED";
    case SYNTH_SPENT:
        return "SYNTH_SPENT";
    case SYNTH_FULL:
        return "SYNTH_FULL";
    case SYNTH_LOST:
        return "SYNTH_LOST";
    case SYNTH_EMPTY:
        return "SYNTH_EMPTY";
    case SYNTH_MOVED:
        return "SYNTH_MOVED";
    case SYNTH_BUSY:
        return "SYNTH_BUSY";
    case SYNTH_VACANT:
        return "SYNTH_VACANT";
    case SYNTH_NO_ROOM:
        return "SYNTH_NO_ROOM";
    case SYNTH_OPEN:
        return "SYNTH_OPEN";
    case SYNTH_NOT_HELD:
        return "SYNTH_NOT_HELD";
    case SYNTH_NOT_SERVED:
        return "SYNTH_NOT_SERVED";
    case SYNTH_ALL_WOKEN:
        return "SYNTH_ALL_WOKEN";
    case SYNTH_STOPPED:
        return "SYNTH_STOPPED";
    case SYNTH_TAKEN:
        return "SYNTH_TAKEN";
    case SYNTH_BROKEN:
        return "SYNTH_BROKEN";
    case SYNTH_RUN:
        return "SYNTH_RUN";
    case SYNTH_LEFT:
        return "SYNTH_LEFT";
    case SYNTH_NOTE:
        return "SYNTH_NOTE";
    case SYNTH_AGAIN:
        return "SYNTH_AGAIN";
    case SYNTH_RUNNING:
        return "SYNTH_RUNNING";
    case SYNTH_NOT_RUNNING:
        return "SYNTH_NOT_RUNNING";
    case SYNTH_NO_MEMORY:
        return "SYNTH_NO_MEMORY";
    case SYNTH_EMPTY_HANDLE:
        return "SYNTH_EMPTY_HANDLE";
    case SYNTH_FULL_HANDLE:
        return "SYNTH_FULL_HANDLE";
    case SYNTH_OTHER_OBJECT:
        return "SYNTH_OTHER_OBJECT";
    case SYNTH_NO_SHARE:
        return "SYNTH_NO_SHARE";
    case SYNTH_SHORT_BUFFER:
        return "SYNTH_SHORT_BUFFER";
    case SYNTH_BAD_NUMBER:
        return "SYNTH_BAD_NUMBER";
    }
    return "not a code";
}

const char *synth_code_text(synth_code code)
{
    switch ((enum synth_codes)code) {
    case SYNTH_OK:
        return "it was done";
    case SYNTH_NO_ITEMS:
        return "a put of no items";
    case SYNTH_TOO_LONG:
        return "a put of more items than the queue has places";
    case SYNTH_CLOSED:
        return "the queue is shut";
    case SYNTH_SPENT:
        return "no position, tick or step is left, or fewer positions than the put wants";
    case SYNTH_FULL:
        return "there was no room";
    case SYNTH_LOST:
        return "another end was first";
    case SYNTH_EMPTY:
        return "there was nothing to take";
    case SYNTH_MOVED:
        return "the wait queue was notified since the ticket";
    case SYNTH_BUSY:
        return "an element is on the processor";
    case SYNTH_VACANT:
        return "no element is on the processor";
    case SYNTH_NO_ROOM:
        return "each alarm slot was found taken";
    case SYNTH_OPEN:
        return "the handle hasn't the whole object";
    case SYNTH_NOT_HELD:
        return "the hand doesn't hold the element";
    case SYNTH_NOT_SERVED:
        return "the hand doesn't serve the processor";
    case SYNTH_ALL_WOKEN:
        return "each place that was claimed before the notify is taken";
    case SYNTH_STOPPED:
        return "the element's stop bit is set";
    case SYNTH_TAKEN:
        return "another hand has taken the element";
    case SYNTH_BROKEN:
        return "the queue is ended, and a put of it never ended";
    case SYNTH_RUN:
        return "the note is chained, and this handle runs notes from now on";
    case SYNTH_LEFT:
        return "the note is chained, and the handle that runs notes is given it";
    case SYNTH_NOTE:
        return "the next note";
    case SYNTH_AGAIN:
        return "no note was found, but one may have come";
    case SYNTH_RUNNING:
        return "the handle runs notes";
    case SYNTH_NOT_RUNNING:
        return "the handle runs no notes";
    case SYNTH_NO_MEMORY:
        return "malloc gave null";
    case SYNTH_EMPTY_HANDLE:
        return "a handle is empty where a full one is wanted";
    case SYNTH_FULL_HANDLE:
        return "a handle is full where an empty one is wanted";
    case SYNTH_OTHER_OBJECT:
        return "the two handles are of two objects";
    case SYNTH_NO_SHARE:
        return "the handle was split too often";
    case SYNTH_SHORT_BUFFER:
        return "the buffer has less room than the call wants";
    case SYNTH_BAD_NUMBER:
        return "a number is out of its range";
    }
    return "not a code";
}
