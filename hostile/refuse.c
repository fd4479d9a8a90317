/* Refuses memory to a program: preloaded, it counts the calls of malloc and realloc, those of all threads together, and answers NULL
 * to the one whose number is REFUSE, or where REFUSE_ALL is set to that and all later ones. At the end it writes into the file COUNTED
 * how many there were, and how many bytes they asked for together. hostile/run compiles and uses it; nothing of the product does. */
#define _GNU_SOURCE
#include <dlfcn.h>
#include <fcntl.h>
#include <stdio.h>
#include <stdlib.h>
#include <sys/syscall.h>
#include <unistd.h>

static unsigned long calls, bytes, refused;
static int all;
static void *(*next_malloc)(size_t);
static void *(*next_realloc)(void *, size_t);

__attribute__((constructor)) static void begin(void) {
    const char *at = getenv("REFUSE");
    next_malloc = dlsym(RTLD_NEXT, "malloc");
    next_realloc = dlsym(RTLD_NEXT, "realloc");
    all = getenv("REFUSE_ALL") != NULL;
    refused = at ? strtoul(at, NULL, 10) : 0;
    calls = bytes = 0;
}

static void tell(void) {
    const char *path = getenv("COUNTED");
    char text[48];
    int file = path ? open(path, O_WRONLY | O_CREAT | O_TRUNC, 0600) : -1;
    if (file >= 0) {
        int size = snprintf(text, sizeof text, "%lu %lu\n", calls, bytes);
        if (write(file, text, size) != size) abort();
        close(file);
    }
}

__attribute__((destructor)) static void end(void) { tell(); }

/* A program that may start threads ends so, and no destructor runs. */
void _exit(int status) {
    tell();
    for (;;) syscall(SYS_exit_group, status);
}

static int is_refused(size_t size) {
    unsigned long call = __atomic_add_fetch(&calls, 1, __ATOMIC_SEQ_CST);
    __atomic_add_fetch(&bytes, size, __ATOMIC_SEQ_CST);
    return refused && (all ? call >= refused : call == refused);
}

void *malloc(size_t size) {
    if (!next_malloc) next_malloc = dlsym(RTLD_NEXT, "malloc");
    return is_refused(size) ? NULL : next_malloc(size);
}

void *realloc(void *old, size_t size) {
    if (!next_realloc) next_realloc = dlsym(RTLD_NEXT, "realloc");
    return is_refused(size) ? NULL : next_realloc(old, size);
}
