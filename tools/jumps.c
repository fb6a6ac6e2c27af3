/* A wall clock that jumps, for LD_PRELOAD: each look at it is a day before or behind the one before. The other clocks are as they
 * are. tools/watchers builds it. */
#define _GNU_SOURCE
#include <sys/syscall.h>
#include <time.h>
#include <unistd.h>

int clock_gettime(clockid_t clock, struct timespec *now) {
    static time_t jump;
    int status = (int)syscall(SYS_clock_gettime, clock, now);
    if (status == 0 && clock == CLOCK_REALTIME)
        now->tv_sec += jump = jump == 0 ? -86400 : 0;
    return status;
}
