/* Refuses memory for datagrams: preloaded, once a datagram was received whose eleventh byte, which is the invoke byte of a GET, is cf, and its
 * record was written into a file, the next call of malloc answers NULL. runs/sessions compiles and uses it; nothing of the product does. */
#define _GNU_SOURCE
#include <dlfcn.h>
#include <stdlib.h>
#include <sys/socket.h>
#include <sys/syscall.h>
#include <unistd.h>

static enum { NOTHING, CAME, RECORDED } state;
static void *(*next_malloc)(size_t);

ssize_t recvfrom(int file, void *bytes, size_t size, int flags, struct sockaddr *from, socklen_t *len) {
    ssize_t done = syscall(SYS_recvfrom, file, bytes, size, flags, from, len);
    if (done > 10 && ((unsigned char *)bytes)[10] == 0xcf)
        state = CAME;
    return done;
}

ssize_t write(int file, const void *bytes, size_t size) {
    if (file > 2 && state == CAME)
        state = RECORDED;
    return syscall(SYS_write, file, bytes, size);
}

void *malloc(size_t size) {
    if (!next_malloc)
        next_malloc = dlsym(RTLD_NEXT, "malloc");
    if (state == RECORDED) {
        state = NOTHING;
        return NULL;
    }
    return next_malloc(size);
}
