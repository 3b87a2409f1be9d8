// Linked to runners/single_calls.rattle: a child process for each trial, since of a process one
// allocation can be refused.
#include <stdint.h>
#include <sys/mman.h>
#include <sys/wait.h>
#include <unistd.h>

static volatile uint64_t *kept; // what a child reported to its parent

// Whether this is the child, which may take this many seconds, or any time for 0. The parent goes
// on when the child has ended, and ends where the child failed.
int32_t is_child(uint32_t seconds)
{
    if (!kept)
        kept = mmap(NULL, sizeof *kept, PROT_READ | PROT_WRITE, MAP_SHARED | MAP_ANONYMOUS, -1, 0);
    pid_t child = kept == MAP_FAILED ? -1 : fork();
    int status;
    if (child == 0) {
        alarm(seconds);
        return 1;
    }
    if (child < 0 || waitpid(child, &status, 0) != child || status != 0)
        _exit(2);
    return 0;
}

void set_reported(uint64_t number)
{
    *kept = number;
}

uint64_t reported(void)
{
    return *kept;
}

void end_child(int32_t status)
{
    _exit(status);
}
