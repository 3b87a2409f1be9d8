// Preloaded into the program under test: its reads of standard input and writes of standard output
// and standard error fail or are short, as the environment says. READ, WRITE and ERROR are for the
// descriptors 0, 1 and 2. Each is three numbers: the most bytes that a call takes (0: all), which
// call fails (0: none), and its errno (0: the call takes nothing). RANDOM is the same for calls of
// getentropy. For a call that failed it writes one byte on the descriptor REFUSED.
#define _GNU_SOURCE
#include <dlfcn.h>
#include <errno.h>
#include <stdio.h>
#include <stdlib.h>
#include <unistd.h>

struct stream {
    unsigned long most, failing, error, calls;
};

static struct stream streams[4];
static ssize_t (*real_read)(int, void *, size_t);
static ssize_t (*real_write)(int, const void *, size_t);
static int (*real_getentropy)(void *, size_t);

__attribute__((constructor)) static void start(void)
{
    const char *names[] = {"READ", "WRITE", "ERROR", "RANDOM"};
    for (int i = 0; i < 4; i++) {
        const char *given = getenv(names[i]);
        if (given)
            sscanf(given, "%lu %lu %lu", &streams[i].most, &streams[i].failing, &streams[i].error);
    }
    real_read = (ssize_t(*)(int, void *, size_t))dlsym(RTLD_NEXT, "read");
    real_write = (ssize_t(*)(int, const void *, size_t))dlsym(RTLD_NEXT, "write");
    real_getentropy = (int (*)(void *, size_t))dlsym(RTLD_NEXT, "getentropy");
}

// Whether this call fails. If it doesn't, the size is made as short as it may be.
static int call_fails(struct stream *it, size_t *size)
{
    if (++it->calls == it->failing) {
        if (real_write(atoi(getenv("REFUSED")), "!", 1) != 1)
            abort();
        errno = (int)it->error;
        return 1;
    }
    if (it->most && *size > it->most)
        *size = it->most;
    return 0;
}

// Whether this call of a descriptor fails.
static int fails(int fd, size_t *size)
{
    return fd >= 0 && fd <= 2 && call_fails(&streams[fd], size);
}

int getentropy(void *to, size_t size)
{
    if (call_fails(&streams[3], &size))
        return -1;
    return real_getentropy(to, size);
}

ssize_t read(int fd, void *to, size_t size)
{
    if (fails(fd, &size))
        return errno ? -1 : 0;
    return real_read(fd, to, size);
}

ssize_t write(int fd, const void *from, size_t size)
{
    if (fails(fd, &size))
        return errno ? -1 : 0;
    return real_write(fd, from, size);
}

ssize_t __write(int fd, const void *from, size_t size)
{
    return write(fd, from, size);
}
