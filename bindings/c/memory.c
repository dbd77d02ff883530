/* Memory that a test refuses: see memory.h. */
#include "memory.h"

enum { MOST = 256 };

static unsigned long refused, asked;
static size_t peak;

/* The blocks that are taken, and how many bytes each was asked for. */
static struct {
    void *block;
    size_t length;
} blocks[MOST];

#ifdef __cplusplus
extern "C" {
#endif

void *__real_malloc(size_t length);
void *__real_calloc(size_t count, size_t length);
void *__real_realloc(void *block, size_t length);
void __real_free(void *block);
void *__wrap_malloc(size_t length);
void *__wrap_calloc(size_t count, size_t length);
void *__wrap_realloc(void *block, size_t length);
void __wrap_free(void *block);

void memory_refuse(unsigned long number)
{
    refused = number;
    asked = 0;
    peak = memory_bytes();
}

unsigned long memory_asked(void)
{
    return asked;
}

long memory_taken(void)
{
    long taken = 0;
    for (int i = 0; i < MOST; i++) {
        taken += blocks[i].block != NULL;
    }
    return taken;
}

size_t memory_bytes(void)
{
    size_t bytes = 0;
    for (int i = 0; i < MOST; i++) {
        bytes += blocks[i].block ? blocks[i].length : 0;
    }
    return bytes;
}

size_t memory_peak(void)
{
    return peak;
}

static int is_refused(size_t length)
{
    asked++;
    return asked == refused || length > (size_t)1 << 30;
}

/* Puts a block in the place of another in the list. Null means none. */
static void *replaced(void *old, void *block, size_t length)
{
    for (int i = 0; i < MOST; i++) {
        if (blocks[i].block == old) {
            blocks[i].block = block;
            blocks[i].length = length;
            break;
        }
    }
    peak = memory_bytes() > peak ? memory_bytes() : peak;
    return block;
}

void *__wrap_malloc(size_t length)
{
    return is_refused(length) ? NULL : replaced(NULL, __real_malloc(length), length);
}

void *__wrap_calloc(size_t count, size_t length)
{
    return is_refused(count * length) ? NULL : replaced(NULL, __real_calloc(count, length), count * length);
}

void *__wrap_realloc(void *block, size_t length)
{
    void *grown;
    if (is_refused(length)) {
        return NULL;
    }
    grown = __real_realloc(block, length);
    return grown ? replaced(block, grown, length) : NULL;
}

void __wrap_free(void *block)
{
    if (block) {
        replaced(block, NULL, 0);
    }
    __real_free(block);
}

#ifdef __cplusplus
}
#endif
