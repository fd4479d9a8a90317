/* Has a read of a file fail, as where a disk has a bad block: preloaded, the read with the number UNREAD of those of the file whose path ends
 * with NAME, and no other. runs/sessions compiles and uses it; nothing of the product does. */
#define _GNU_SOURCE
#include <errno.h>
#include <stdio.h>
#include <stdlib.h>
#include <string.h>
#include <sys/syscall.h>
#include <unistd.h>

static const char *name;
static long number, reads;

__attribute__((constructor)) static void begin(void) {
    const char *at = getenv("UNREAD");
    name = getenv("NAME");
    number = at ? atol(at) : 0;
}

/* Whether this is the read that fails. */
static int fails(int file) {
    char link[32], path[4096];
    if (!name || file <= 2) return 0;
    snprintf(link, sizeof link, "/proc/self/fd/%d", file);
    ssize_t size = readlink(link, path, sizeof path);
    if (size < (ssize_t)strlen(name) || memcmp(path + size - strlen(name), name, strlen(name)) != 0) return 0;
    return ++reads == number;
}

ssize_t read(int file, void *bytes, size_t size) {
    if (fails(file)) {
        errno = EIO;
        return -1;
    }
    return syscall(SYS_read, file, bytes, size);
}

ssize_t pread64(int file, void *bytes, size_t size, off64_t at) {
    if (fails(file)) {
        errno = EIO;
        return -1;
    }
    return syscall(SYS_pread64, file, bytes, size, at);
}
ssize_t pread(int file, void *bytes, size_t size, off_t at) { return pread64(file, bytes, size, at); }
