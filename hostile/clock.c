/* Has the clocks of a program jump: preloaded, each JUMPS-th time that they are read the one that may be set jumps backwards and forwards by
 * turns, by SECONDS each time, and the steady one forwards, as where the machine was suspended. hostile/daemons compiles and uses it; nothing
 * of the product does. */
#define _GNU_SOURCE
#include <stdlib.h>
#include <sys/syscall.h>
#include <time.h>
#include <unistd.h>

static unsigned long reads, jumps, seconds;

__attribute__((constructor)) static void begin(void) {
    const char *often = getenv("JUMPS"), *far = getenv("SECONDS");
    jumps = often ? strtoul(often, NULL, 10) : 0;
    seconds = far ? strtoul(far, NULL, 10) : 0;
}

int clock_gettime(clockid_t clock, struct timespec *at) {
    int done = syscall(SYS_clock_gettime, clock, at);
    if (done || !jumps) return done;
    unsigned long jumped = ++reads / jumps;
    if (clock == CLOCK_REALTIME) at->tv_sec += jumped % 2 ? -(long)seconds : (long)seconds;
    else at->tv_sec += jumped * seconds;
    return 0;
}
