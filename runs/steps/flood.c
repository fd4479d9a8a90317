/* Has a stranger's datagrams come to one socket without end: preloaded, each read of the socket that is read first brings one, and all others
 * what the system has. A process that sleeps all the same ends with status 99. runs/sessions compiles and uses it; nothing of the product
 * does. */
#define _GNU_SOURCE
#include <arpa/inet.h>
#include <string.h>
#include <sys/socket.h>
#include <sys/syscall.h>
#include <time.h>
#include <unistd.h>

static int flooded = -1;

ssize_t recvfrom(int file, void *bytes, size_t size, int flags, struct sockaddr *from, socklen_t *len) {
    if (flooded < 0)
        flooded = file;
    if (file != flooded)
        return syscall(SYS_recvfrom, file, bytes, size, flags, from, len);
    /* (port 9 is that of the discard protocol) */
    struct sockaddr_in stranger = {.sin_family = AF_INET, .sin_port = htons(9), .sin_addr = {htonl(INADDR_LOOPBACK)}};
    memcpy(from, &stranger, sizeof stranger);
    *len = sizeof stranger;
    memset(bytes, 0, 1);
    return 1;
}

int nanosleep(const struct timespec *asked, struct timespec *left) {
    if (flooded >= 0)
        _exit(99);
    return syscall(SYS_nanosleep, asked, left);
}
