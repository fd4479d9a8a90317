/* Has each socket bring one datagram at a time: preloaded, a socket that has just brought one brings none at the next read, and none
 * while that is waited for, whatever has come. So a network is slow of which no datagram is lost. runs/sessions compiles and uses it;
 * nothing of the product does. */
#define _GNU_SOURCE
#include <errno.h>
#include <fcntl.h>
#include <sys/socket.h>
#include <sys/syscall.h>
#include <unistd.h>

enum { SOCKETS = 1024 };

/* A socket is ready, or it has just brought a datagram, or none was brought after that. */
enum { READY, BROUGHT, HELD };
static char states[SOCKETS];

ssize_t recv(int file, void *bytes, size_t size, int flags) {
    char *state = &states[file % SOCKETS];
    int waits = !(fcntl(file, F_GETFL) & O_NONBLOCK);
    if (*state == (waits ? HELD : BROUGHT)) {
        *state = HELD;
        errno = EAGAIN;
        return -1;
    }
    ssize_t done = syscall(SYS_recvfrom, file, bytes, size, flags, NULL, NULL);
    *state = done < 0 ? READY : BROUGHT;
    return done;
}
