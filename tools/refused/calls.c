/*
 * Counts the calls of malloc and realloc that a program makes, its calls of pthread_create, and its reads of standard
 * input. It refuses the allocation whose number REFUSED_ALLOCATION has, or the thread whose number REFUSED_THREAD has.
 * From the call REFUSED_READ on each read of standard input fails, by the error READ_ERROR or else an input fault. So do
 * the writes to standard output from REFUSED_WRITE on, and those to standard error from REFUSED_TELL on, as on a full
 * device. If BYTE_BY_BYTE is 1 each of these calls moves one byte at the most.
 * It is loaded before the program's libraries. In the end the three counts are written to descriptor 3, on one line,
 * whether the program returns from its main function or leaves by _exit. It includes no header, so that a compiler alone
 * is enough.
 */
typedef __SIZE_TYPE__ size;
typedef __PTRDIFF_TYPE__ moved;
typedef int start_thread(void *thread, const void *attributes, void *(*begin)(void *), void *argument);

enum { NEXT_LIBRARY = -1, TRY_AGAIN = 11, INPUT_FAULT = 5, FULL_DEVICE = 28 };
enum { READ = 0, WRITE = 1, EXIT_GROUP = 231 };
enum { INPUT = 0, OUTPUT = 1, ERRORS = 2, COUNTS = 3 };

void *__libc_malloc(size length);
void *__libc_realloc(void *block, size length);
void *dlsym(void *library, const char *name);
char *getenv(const char *name);
long atol(const char *digits);
int dprintf(int descriptor, const char *format, ...);
long syscall(long number, ...);
int *__errno_location(void);

static int is_counting;
static long refused_allocation;
static long refused_thread;
static long first_refused[COUNTS];
static long read_error;
static long is_byte_by_byte;
static long allocations;
static long threads;
static long calls[COUNTS];

static int is_refused(long *count, long refused)
{
    return is_counting && __atomic_add_fetch(count, 1, __ATOMIC_SEQ_CST) == refused;
}

static long number_in(const char *name)
{
    const char *number = getenv(name);
    return number ? atol(number) : 0;
}

void *malloc(size length)
{
    return is_refused(&allocations, refused_allocation) ? (void *)0 : __libc_malloc(length);
}

void *realloc(void *block, size length)
{
    return is_refused(&allocations, refused_allocation) ? (void *)0 : __libc_realloc(block, length);
}

int pthread_create(void *thread, const void *attributes, void *(*begin)(void *), void *argument)
{
    start_thread *start;
    if (is_refused(&threads, refused_thread)) {
        return TRY_AGAIN;
    }
    *(void **)&start = dlsym((void *)NEXT_LIBRARY, "pthread_create");
    return start(thread, attributes, begin, argument);
}

/* A read or a write, unless it is on one of the three streams and from this call on they fail. */
static moved move_bytes(long number, int descriptor, const void *bytes, size length, long error)
{
    if (is_counting && descriptor >= INPUT && descriptor <= ERRORS) {
        long call = __atomic_add_fetch(&calls[descriptor], 1, __ATOMIC_SEQ_CST);
        if (first_refused[descriptor] && call >= first_refused[descriptor]) {
            *__errno_location() = (int)error;
            return -1;
        }
        if (is_byte_by_byte && length > 1) {
            length = 1;
        }
    }
    return syscall(number, (long)descriptor, bytes, length);
}

moved read(int descriptor, void *bytes, size length)
{
    return move_bytes(READ, descriptor, bytes, length, read_error);
}

moved write(int descriptor, const void *bytes, size length)
{
    return move_bytes(WRITE, descriptor, bytes, length, FULL_DEVICE);
}

__attribute__((constructor)) static void begin(void)
{
    refused_allocation = number_in("REFUSED_ALLOCATION");
    refused_thread = number_in("REFUSED_THREAD");
    first_refused[INPUT] = number_in("REFUSED_READ");
    first_refused[OUTPUT] = number_in("REFUSED_WRITE");
    first_refused[ERRORS] = number_in("REFUSED_TELL");
    read_error = number_in("READ_ERROR");
    if (!read_error) {
        read_error = INPUT_FAULT;
    }
    is_byte_by_byte = number_in("BYTE_BY_BYTE");
    is_counting = 1;
}

__attribute__((destructor)) static void end(void)
{
    is_counting = 0;
    dprintf(COUNTS, "%ld %ld %ld\n", allocations, threads, calls[INPUT]);
}

void _exit(int status)
{
    end();
    syscall(EXIT_GROUP, (long)status);
    __builtin_unreachable();
}
