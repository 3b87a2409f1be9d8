// Preloaded into the program under test: refuses its Nth allocation, where N is the environment's
// REFUSE, and says so by one byte on the file descriptor REFUSED. It counts the allocations in the
// first eight bytes of the file COUNTED, if it is given one. Counting starts once the C library has
// loaded the program.
#include <errno.h>
#include <fcntl.h>
#include <stddef.h>
#include <stdlib.h>
#include <sys/mman.h>
#include <unistd.h>

// the C library's own names for what the functions below replace
void *__libc_malloc(size_t size);
void *__libc_calloc(size_t count, size_t size);
void *__libc_realloc(void *old, size_t size);
void *__libc_memalign(size_t alignment, size_t size);

// allocations up to the refused one, it included; 0: none is refused any more
static unsigned long left;

static unsigned long here;          // the count where no file was given
static unsigned long *made = &here; // allocations so far

__attribute__((constructor)) static void start(void)
{
    const char *nth = getenv("REFUSE");
    left = nth ? strtoul(nth, NULL, 10) : 0;
    const char *counted = getenv("COUNTED");
    int file = counted ? open(counted, O_RDWR) : -1;
    void *shared = mmap(NULL, sizeof *made, PROT_READ | PROT_WRITE, MAP_SHARED, file, 0);
    if (shared != MAP_FAILED)
        made = shared;
}

// Whether this allocation is the refused one. A program may allocate in several threads.
static int refused(void)
{
    unsigned long before = __atomic_load_n(&left, __ATOMIC_RELAXED);
    __atomic_add_fetch(made, 1, __ATOMIC_RELAXED);
    while (before
           && !__atomic_compare_exchange_n(&left, &before, before - 1, 0, __ATOMIC_RELAXED,
                                           __ATOMIC_RELAXED)) {
    }
    if (before != 1)
        return 0;
    if (write(atoi(getenv("REFUSED")), "!", 1) != 1)
        abort();
    return 1;
}

static void *none(void)
{
    errno = ENOMEM;
    return NULL;
}

void *malloc(size_t size)
{
    return refused() ? none() : __libc_malloc(size);
}

void *calloc(size_t count, size_t size)
{
    return refused() ? none() : __libc_calloc(count, size);
}

void *realloc(void *old, size_t size)
{
    return refused() ? none() : __libc_realloc(old, size);
}

void *aligned_alloc(size_t alignment, size_t size)
{
    return refused() ? none() : __libc_memalign(alignment, size);
}

void *memalign(size_t alignment, size_t size)
{
    return refused() ? none() : __libc_memalign(alignment, size);
}

int posix_memalign(void **made, size_t alignment, size_t size)
{
    void *got = refused() ? none() : __libc_memalign(alignment, size);
    if (!got)
        return ENOMEM;
    *made = got;
    return 0;
}
