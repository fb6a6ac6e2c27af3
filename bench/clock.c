/* The clock of the program that it is loaded before, for bench/run. BENCH_CLOCK=processor: the processor time of the
   process. BENCH_CLOCK=allocations: a nanosecond each time that memory was asked for, so that what a step takes of this
   clock is how often it asked. */
#define _GNU_SOURCE
#include <dlfcn.h>
#include <stdlib.h>
#include <string.h>
#include <sys/syscall.h>
#include <time.h>
#include <unistd.h>

static long asked;
static int counts;

__attribute__((constructor)) static void begin(void) {
    const char *clock = getenv("BENCH_CLOCK");
    counts = clock && strcmp(clock, "allocations") == 0;
}

void *malloc(size_t size) {
    static void *(*next)(size_t);
    if (!next)
        next = dlsym(RTLD_NEXT, "malloc");
    asked++;
    return next(size);
}

void *realloc(void *memory, size_t size) {
    static void *(*next)(void *, size_t);
    if (!next)
        next = dlsym(RTLD_NEXT, "realloc");
    asked++;
    return next(memory, size);
}

int clock_gettime(clockid_t clock, struct timespec *time) {
    (void)clock;
    if (!counts)
        return (int)syscall(SYS_clock_gettime, CLOCK_PROCESS_CPUTIME_ID, time);
    time->tv_sec = asked / 1000000000;
    time->tv_nsec = asked % 1000000000;
    return 0;
}
