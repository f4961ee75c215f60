// Has the steady clock go so many times as fast as the environment says in HURRIED, from the first look at it on; with 0 it stands still. It is
// loaded before the C library, in whose place it answers.
#include <stdatomic.h>
#include <stdlib.h>
#include <sys/syscall.h>
#include <time.h>
#include <unistd.h>

static const long long SECOND = 1000000000;

static long long times(void)
{
    const char *text = getenv("HURRIED");
    return text ? atoll(text) : 1;
}

int clock_gettime(clockid_t clock, struct timespec *time)
{
    static _Atomic long long began;
    long status = syscall(SYS_clock_gettime, clock, time);
    if (status != 0 || clock != CLOCK_MONOTONIC)
        return (int)status;
    long long now = time->tv_sec * SECOND + time->tv_nsec, none = 0;
    if (atomic_compare_exchange_strong(&began, &none, now))
        none = now;
    now = none + (now - none) * times();
    time->tv_sec = now / SECOND;
    time->tv_nsec = now % SECOND;
    return 0;
}
