/*
 * What is declared to ThreadSanitizer of the library, whose steps it doesn't see. All that a thread did before
 * SYNTH_RELEASE_ of a carrier is visible after a later SYNTH_ACQUIRE_ of it. The library does that; here it is only
 * declared. Without ThreadSanitizer both are nothing. Two carriers may share a word, so a race may be missed, but none
 * is made up.
 */
#ifndef SYNTHESIS_ORDER_H
#define SYNTHESIS_ORDER_H

#include "../synthesis.h"

#if defined(__SANITIZE_THREAD__)
#define SYNTH_WATCHED_
#elif defined(__has_feature)
#if __has_feature(thread_sanitizer)
#define SYNTH_WATCHED_
#endif
#endif

/* The kinds of carriers. An item is one by its value, an element or a gauge by its number. */
#define SYNTH_ITEM_ 0u
#define SYNTH_SHUT_ 1u
#define SYNTH_BYTE_ 2u
#define SYNTH_ELEMENT_ 3u
#define SYNTH_WAIT_ 4u
#define SYNTH_GAUGE_ 5u
#define SYNTH_CLOCK_ 6u
#define SYNTH_ALARM_ 7u
#define SYNTH_NOTE_OF_ 8u
#define SYNTH_TURN_ 9u

#ifdef SYNTH_WATCHED_
#ifdef __cplusplus
extern "C" {
#endif

void __tsan_acquire(void *word);
void __tsan_release(void *word);

/* One for all files of a program. Only their addresses are used. */
extern uint64_t synth_carriers_[1024];
__attribute__((weak)) uint64_t synth_carriers_[1024];

SYNTH_CALL_ void *synth_carrier_(uint64_t kind, uint64_t number)
{
    return &synth_carriers_[(number * 16u + kind) * 0x9e3779b97f4a7c15u >> 54];
}

SYNTH_CALL_ void synth_release_items_(const uint64_t *items, size_t count)
{
    for (size_t i = 0; i < count; i++) {
        __tsan_release(synth_carrier_(SYNTH_ITEM_, items[i]));
    }
}

SYNTH_CALL_ void synth_acquire_items_(const uint64_t *items, size_t count)
{
    for (size_t i = 0; i < count; i++) {
        __tsan_acquire(synth_carrier_(SYNTH_ITEM_, items[i]));
    }
}

#ifdef __cplusplus
}
#endif

#define SYNTH_RELEASE_(kind, number) __tsan_release(synth_carrier_(kind, number))
#define SYNTH_ACQUIRE_(kind, number) __tsan_acquire(synth_carrier_(kind, number))
#define SYNTH_RELEASE_ITEMS_(items, count) synth_release_items_(items, count)
#define SYNTH_ACQUIRE_ITEMS_(items, count) synth_acquire_items_(items, count)
#else
#define SYNTH_RELEASE_(kind, number) ((void)0)
#define SYNTH_ACQUIRE_(kind, number) ((void)0)
#define SYNTH_RELEASE_ITEMS_(items, count) ((void)0)
#define SYNTH_ACQUIRE_ITEMS_(items, count) ((void)0)
#endif

#endif
