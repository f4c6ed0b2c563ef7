/* Has the clock of a program that it is loaded into (LD_PRELOAD) stand still, for `checks/folds`: at so many seconds
   after 1970 as MOMENT tells. What else it measures time by goes on. */
#define _GNU_SOURCE
#include <stdlib.h>
#include <sys/syscall.h>
#include <time.h>
#include <unistd.h>

int clock_gettime(clockid_t clock, struct timespec *found)
{
    const char *moment = getenv("MOMENT");
    if (clock != CLOCK_REALTIME || !moment)
        return syscall(SYS_clock_gettime, clock, found);
    found->tv_sec = strtoll(moment, NULL, 10);
    found->tv_nsec = 0;
    return 0;
}
