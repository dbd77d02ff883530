/* The version of the library that is linked, which may be another one than that of the header. */
#include "synthesis.h"

const char *synth_version(void)
{
    return SYNTH_VERSION;
}

/* A later version that serves programs of this one keeps this function, and has one more. */
const char *SYNTH_VERSION_SYMBOL(void)
{
    return SYNTH_VERSION;
}
