// Preloaded into the program under test: counts the bytes that it has asked its allocator for and
// not given back. The most that there were at once is in the first eight bytes of the file
// REQUESTED. It counts what is asked, not what the C library makes of it.
#include <errno.h>
#include <fcntl.h>
#include <stddef.h>
#include <stdint.h>
#include <stdlib.h>
#include <sys/mman.h>

// the C library's own names for what the functions below replace
void *__libc_malloc(size_t size);
void *__libc_calloc(size_t count, size_t size);
void *__libc_realloc(void *old, size_t size);
void *__libc_memalign(size_t alignment, size_t size);
void __libc_free(void *old);

// What is before each block: where the C library's block begins, and how much was asked.
struct head {
    void *start;
    size_t size;
};

static uint64_t held;          // bytes that are asked for now
static uint64_t here;          // the most where no file was given
static uint64_t *most = &here; // the most so far

__attribute__((constructor)) static void start(void)
{
    const char *given = getenv("REQUESTED");
    int file = given ? open(given, O_RDWR) : -1;
    void *shared = mmap(NULL, sizeof *most, PROT_READ | PROT_WRITE, MAP_SHARED, file, 0);
    if (shared != MAP_FAILED)
        most = shared;
}

static void add(size_t size)
{
    uint64_t now = __atomic_add_fetch(&held, size, __ATOMIC_RELAXED);
    uint64_t before = __atomic_load_n(most, __ATOMIC_RELAXED);
    while (now > before
           && !__atomic_compare_exchange_n(most, &before, now, 0, __ATOMIC_RELAXED,
                                           __ATOMIC_RELAXED)) {
    }
}

static struct head *head_of(void *block)
{
    return (struct head *)block - 1;
}

// Gives out the block that is this many bytes after what the C library has given.
static void *given(void *start, size_t after, size_t size)
{
    if (!start)
        return NULL;
    void *block = (char *)start + after;
    *head_of(block) = (struct head){start, size};
    add(size);
    return block;
}

static int is_too_large(size_t size, size_t more)
{
    if (size <= PTRDIFF_MAX - more)
        return 0;
    errno = ENOMEM;
    return 1;
}

void *malloc(size_t size)
{
    size_t more = sizeof(struct head);
    return is_too_large(size, more) ? NULL : given(__libc_malloc(size + more), more, size);
}

void *calloc(size_t count, size_t size)
{
    size_t more = sizeof(struct head), all;
    if (__builtin_mul_overflow(count, size, &all) || is_too_large(all, more))
        return NULL;
    return given(__libc_calloc(1, all + more), more, all);
}

void *memalign(size_t alignment, size_t size)
{
    size_t more = alignment < sizeof(struct head) ? sizeof(struct head) : alignment;
    return is_too_large(size, more) ? NULL : given(__libc_memalign(more, size + more), more, size);
}

void *aligned_alloc(size_t alignment, size_t size)
{
    return memalign(alignment, size);
}

int posix_memalign(void **made, size_t alignment, size_t size)
{
    void *got = memalign(alignment, size);
    if (!got)
        return ENOMEM;
    *made = got;
    return 0;
}

void free(void *block)
{
    if (!block)
        return;
    __atomic_sub_fetch(&held, head_of(block)->size, __ATOMIC_RELAXED);
    __libc_free(head_of(block)->start);
}

// The C library moves a large block without a copy, so the old block and the new one count as one.
void *realloc(void *old, size_t size)
{
    size_t more = sizeof(struct head);
    if (!old)
        return malloc(size);
    if (is_too_large(size, more))
        return NULL;
    size_t before = head_of(old)->size;
    if ((char *)head_of(old)->start + more != (char *)old) {
        errno = ENOMEM; // a block of an alignment of its own, which no one enlarges
        return NULL;
    }
    void *start = __libc_realloc(head_of(old)->start, size + more);
    if (!start)
        return NULL;
    __atomic_sub_fetch(&held, before, __ATOMIC_RELAXED);
    return given(start, more, size);
}
