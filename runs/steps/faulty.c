/* Has the first receives of a process fail, as where the network is down: preloaded, as many of them as FAULTS says. runs/sessions compiles
 * and uses it; nothing of the product does. */
#define _GNU_SOURCE
#include <errno.h>
#include <stdlib.h>
#include <sys/socket.h>
#include <sys/syscall.h>
#include <unistd.h>

static long faults;

__attribute__((constructor)) static void begin(void) {
    const char *count = getenv("FAULTS");
    faults = count ? atol(count) : 0;
}

ssize_t recvfrom(int file, void *bytes, size_t size, int flags, struct sockaddr *from, socklen_t *len) {
    if (faults > 0) {
        faults--;
        errno = ENETDOWN;
        return -1;
    }
    return syscall(SYS_recvfrom, file, bytes, size, flags, from, len);
}
