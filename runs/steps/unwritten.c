/* Has the writes of a file fail, as where the disk is full: preloaded, those of the file whose path ends with NAME, from the one with the
 * number UNWRITTEN on. runs/sessions compiles and uses it; nothing of the product does. */
#define _GNU_SOURCE
#include <errno.h>
#include <stdio.h>
#include <stdlib.h>
#include <string.h>
#include <sys/syscall.h>
#include <unistd.h>

static const char *name;
static long number, writes;

__attribute__((constructor)) static void begin(void) {
    const char *at = getenv("UNWRITTEN");
    name = getenv("NAME");
    number = at ? atol(at) : 0;
}

/* Whether this write fails. */
static int fails(int file) {
    char link[32], path[4096];
    if (!name || file <= 2) return 0;
    snprintf(link, sizeof link, "/proc/self/fd/%d", file);
    ssize_t size = readlink(link, path, sizeof path);
    if (size < (ssize_t)strlen(name) || memcmp(path + size - strlen(name), name, strlen(name)) != 0) return 0;
    return ++writes >= number;
}

ssize_t write(int file, const void *bytes, size_t size) {
    if (fails(file)) {
        errno = ENOSPC;
        return -1;
    }
    return syscall(SYS_write, file, bytes, size);
}

ssize_t pwrite64(int file, const void *bytes, size_t size, off64_t at) {
    if (fails(file)) {
        errno = ENOSPC;
        return -1;
    }
    return syscall(SYS_pwrite64, file, bytes, size, at);
}
ssize_t pwrite(int file, const void *bytes, size_t size, off_t at) { return pwrite64(file, bytes, size, at); }
