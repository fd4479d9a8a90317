/* Has an hour go by at once: preloaded, it has the clocks of a program say so as soon as the file LATER is there. runs/sessions compiles and
 * uses it; nothing of the product does. */
#define _GNU_SOURCE
#include <stdlib.h>
#include <sys/syscall.h>
#include <time.h>
#include <unistd.h>

int clock_gettime(clockid_t clock, struct timespec *at) {
    int done = syscall(SYS_clock_gettime, clock, at);
    const char *later = getenv("LATER");
    if (!done && later && !access(later, F_OK)) at->tv_sec += 3601;
    return done;
}
