/* Loaded before the C library (LD_PRELOAD): the allocation whose number REFUSED names, counted from 1, is refused, and
   where REFUSED_COUNT names a file, the number of allocations that were asked for is written there at the end. */
#define _GNU_SOURCE
#include <dlfcn.h>
#include <errno.h>
#include <fcntl.h>
#include <stdatomic.h>
#include <stdio.h>
#include <stdlib.h>
#include <sys/syscall.h>
#include <unistd.h>

static atomic_ulong asked;
static unsigned long refused;
static int ready;

static int is_refused(void) {
    if (!ready) {
        const char *said = getenv("REFUSED");
        refused = said ? strtoul(said, NULL, 10) : 0;
        ready = 1;
    }
    if (atomic_fetch_add(&asked, 1) + 1 != refused) return 0;
    errno = ENOMEM;
    return 1;
}

#define NEXT(name) ((next) ? (next) : (next = dlsym(RTLD_NEXT, name)))

void *malloc(size_t size) {
    static void *(*next)(size_t);
    return is_refused() ? NULL : NEXT("malloc")(size);
}

void *realloc(void *from, size_t size) {
    static void *(*next)(void *, size_t);
    return is_refused() ? NULL : NEXT("realloc")(from, size);
}

void *aligned_alloc(size_t align, size_t size) {
    static void *(*next)(size_t, size_t);
    return is_refused() ? NULL : NEXT("aligned_alloc")(align, size);
}

int posix_memalign(void **to, size_t align, size_t size) {
    static int (*next)(void **, size_t, size_t);
    return is_refused() ? ENOMEM : NEXT("posix_memalign")(to, align, size);
}

/* The program ends by this call, and runs no destructors. */
void _exit(int status) {
    char text[32];
    const char *file = getenv("REFUSED_COUNT");
    int to = file ? open(file, O_WRONLY | O_CREAT | O_TRUNC, 0600) : -1;
    if (to >= 0) {
        int length = snprintf(text, sizeof text, "%lu\n", (unsigned long)asked);
        if (write(to, text, length) != length) status = 99;
        close(to);
    }
    syscall(SYS_exit_group, status);
    __builtin_unreachable();
}
