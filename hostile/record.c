/* Records the calls by which a program changes files: preloaded, it writes a line for each that was done into the file RECORD, with the
 * bytes in hexadecimal. So it does for what is to be written to standard output. Where FAIL is a number, the call with that number and
 * all later ones are refused, as on a full disk, except those to standard output. Where KILL is a number, the program is killed before
 * the call with that number, and datagrams, lines and what is taken away count as calls too. Where SENDS is set, a datagram that was sent
 * has a line too, and so has the address that a socket was bound to. hostile/power, hostile/book, hostile/daemons and runs/sessions compile
 * and use it; nothing of the product does. */
#define _GNU_SOURCE
#include <errno.h>
#include <fcntl.h>
#include <signal.h>
#include <stdarg.h>
#include <stdio.h>
#include <stdlib.h>
#include <string.h>
#include <sys/socket.h>
#include <sys/stat.h>
#include <sys/syscall.h>
#include <unistd.h>

static int record = -1;
static unsigned long calls, fails, acts, kills;
static int sends;

__attribute__((constructor)) static void begin(void) {
    const char *path = getenv("RECORD"), *at = getenv("FAIL"), *last = getenv("KILL");
    fails = at ? strtoul(at, NULL, 10) : 0;
    kills = last ? strtoul(last, NULL, 10) : 0;
    sends = getenv("SENDS") != NULL;
    if (!path) return;
    int file = syscall(SYS_openat, AT_FDCWD, path, O_WRONLY | O_CREAT | O_TRUNC, 0600);
    record = fcntl(file, F_DUPFD_CLOEXEC, 100);
    syscall(SYS_close, file);
}

/* A line: a word, numbers, and bytes in hexadecimal. */
static void tell(const char *word, long a, long b, const void *bytes, size_t size) {
    static const char digits[] = "0123456789abcdef";
    if (record < 0) return;
    char *line = malloc(2 * size + 128);
    if (!line) abort();
    int at = sprintf(line, "%s %ld %ld ", word, a, b);
    for (size_t i = 0; i < size; i++) {
        line[at++] = digits[((const unsigned char *)bytes)[i] >> 4];
        line[at++] = digits[((const unsigned char *)bytes)[i] & 15];
    }
    line[at++] = '\n';
    if (syscall(SYS_write, record, line, (size_t)at) != at) abort();
    free(line);
}

static void act(void) {
    if (++acts == kills) syscall(SYS_kill, getpid(), SIGKILL);
}

static int is_refused(void) {
    act();
    calls++;
    if (!fails || calls < fails) return 0;
    tell("refused", calls, 0, "", 0);
    errno = ENOSPC;
    return 1;
}

static int opened(int folder, const char *path, int flags, mode_t mode) {
    struct stat found;
    int made = flags & O_CREAT && fstatat(folder, path, &found, 0) != 0;
    if (made && is_refused()) return -1;
    int file = syscall(SYS_openat, folder, path, flags, mode);
    if (file >= 0) tell(made ? "make" : "open", file, 0, path, strlen(path));
    return file;
}

#define MODE(flags, last) \
    mode_t mode = 0; \
    if ((flags) & (O_CREAT | O_TMPFILE)) { va_list list; va_start(list, last); mode = va_arg(list, int); va_end(list); }

int open(const char *path, int flags, ...) { MODE(flags, flags) return opened(AT_FDCWD, path, flags, mode); }
int open64(const char *path, int flags, ...) { MODE(flags, flags) return opened(AT_FDCWD, path, flags, mode); }
int openat(int folder, const char *path, int flags, ...) { MODE(flags, flags) return opened(folder, path, flags, mode); }
int openat64(int folder, const char *path, int flags, ...) { MODE(flags, flags) return opened(folder, path, flags, mode); }

ssize_t pwrite64(int file, const void *bytes, size_t size, off64_t at) {
    if (is_refused()) return -1;
    ssize_t done = syscall(SYS_pwrite64, file, bytes, size, at);
    if (done > 0) tell("write", file, at, bytes, done);
    return done;
}
ssize_t pwrite(int file, const void *bytes, size_t size, off_t at) { return pwrite64(file, bytes, size, at); }

int ftruncate64(int file, off64_t size) {
    if (is_refused()) return -1;
    int done = syscall(SYS_ftruncate, file, size);
    if (!done) tell("size", file, size, "", 0);
    return done;
}
int ftruncate(int file, off_t size) { return ftruncate64(file, size); }

static int synced(int call, int file) {
    if (is_refused()) return -1;
    int done = syscall(call, file);
    if (!done) tell("sync", file, 0, "", 0);
    return done;
}
int fsync(int file) { return synced(SYS_fsync, file); }
int fdatasync(int file) { return synced(SYS_fdatasync, file); }

int rename(const char *from, const char *to) {
    char both[8200];
    if (is_refused()) return -1;
    int done = syscall(SYS_renameat2, AT_FDCWD, from, AT_FDCWD, to, 0);
    if (!done) tell("rename", 0, 0, both, snprintf(both, sizeof both, "%s/%s", from, to));
    return done;
}
/* What is taken away makes room: it is never refused. */
int unlink(const char *path) {
    act();
    int done = syscall(SYS_unlinkat, AT_FDCWD, path, 0);
    if (!done) tell("unlink", 0, 0, path, strlen(path));
    return done;
}

/* Of a file it is a call as pwrite; of a line it is told before it is done: who reads that may end the program at once. */
ssize_t write(int file, const void *bytes, size_t size) {
    struct stat found;
    if (file > 2 && fstat(file, &found) == 0 && S_ISREG(found.st_mode)) {
        off_t at = fcntl(file, F_GETFL) & O_APPEND ? found.st_size : lseek(file, 0, SEEK_CUR);
        if (is_refused()) return -1;
        ssize_t done = syscall(SYS_write, file, bytes, size);
        if (done > 0) tell("write", file, at, bytes, done);
        return done;
    }
    act();
    if (file == 1 && size > 0) tell("print", file, 0, bytes, size);
    return syscall(SYS_write, file, bytes, size);
}

ssize_t sendto(int file, const void *bytes, size_t size, int flags, const struct sockaddr *to, socklen_t length) {
    act();
    ssize_t done = syscall(SYS_sendto, file, bytes, size, flags, to, length);
    if (sends && done >= 0) tell("send", file, 0, bytes, done);
    return done;
}

int bind(int file, const struct sockaddr *at, socklen_t length) {
    int done = syscall(SYS_bind, file, at, length);
    if (sends && !done) tell("bind", file, 0, at, length);
    return done;
}
