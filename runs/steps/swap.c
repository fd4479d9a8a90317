/* Has another process be quicker: preloaded, right before the first lock of a process is taken, the file `store` is named `old`, and `other`
 * is named `store`. runs/sessions compiles and uses it; nothing of the product does. */
#define _GNU_SOURCE
#include <stdio.h>
#include <sys/file.h>
#include <sys/syscall.h>
#include <unistd.h>

static int has_locked;

int flock(int file, int operation) {
    if (!has_locked) {
        has_locked = 1;
        rename("store", "old");
        rename("other", "store");
    }
    return syscall(SYS_flock, file, operation);
}
