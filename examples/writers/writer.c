// Writes a trace of this program, which dreplay reads: cc -O2 -pthread writer.c && ./a.out run.csv
#define _GNU_SOURCE
#include <pthread.h>
#include <stdint.h>
#include <stdio.h>
#include <stdlib.h>
#include <time.h>
#include <unistd.h>

static FILE *trace;
static pthread_mutex_t lock = PTHREAD_MUTEX_INITIALIZER;
static uint64_t number;

static void open_trace(const char *path) {
    trace = fopen(path, "w");
    if (!trace) { perror(path); exit(1); }
    fputs("number,cpu,thread,pid,execname,time,provider,module,function,name,"
          "arg0,arg1,arg2,arg3,arg4,arg5,arg6,arg7,arg8,arg9\n", trace);
}

// Writes a firing of app:module:function:name with one argument. Names have no comma and no quote.
static void fire(const char *module, const char *function, const char *name, int64_t arg0) {
    struct timespec now;
    pthread_mutex_lock(&lock); // numbers rise in the file, and times with them
    clock_gettime(CLOCK_REALTIME, &now);
    fprintf(trace, "%llu,0,%d,%d,shop,%llu,app,%s,%s,%s,%lld,,,,,,,,,\n",
            (unsigned long long)++number, gettid(), getpid(),
            now.tv_sec * 1000000000ULL + now.tv_nsec, module, function, name, (long long)arg0);
    pthread_mutex_unlock(&lock);
}

static void *work(void *calls) {
    for (long call = 0; call < *(long *)calls; call++) {
        fire("orders", "submit", "entry", call % 512);
        fire("orders", "submit", "return", call % 100 ? 0 : -1);
    }
    return NULL;
}

int main(int argc, char **argv) {
    long calls = argc > 2 ? atol(argv[2]) : 1000;
    pthread_t threads[4];
    open_trace(argc > 1 ? argv[1] : "run.csv");
    for (int i = 0; i < 4; i++) pthread_create(&threads[i], NULL, work, &calls);
    for (int i = 0; i < 4; i++) pthread_join(threads[i], NULL);
    return fclose(trace) != 0;
}
