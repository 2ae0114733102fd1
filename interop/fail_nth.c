/* Loaded before the C library (LD_PRELOAD): refuses the allocation whose number is FAIL_AT, and makes the file REFUSED_TO when it does. */
#define _GNU_SOURCE
#include <dlfcn.h>
#include <fcntl.h>
#include <stdlib.h>
#include <unistd.h>

static int is_refused(void) {
    static unsigned long made, refused_at;
    static int asked;
    if (!asked) {
        const char *at = getenv("FAIL_AT");
        refused_at = at ? strtoul(at, 0, 10) : 0;
        asked = 1;
    }
    if (++made != refused_at) return 0;
    const char *path = getenv("REFUSED_TO");
    if (path) close(open(path, O_CREAT | O_WRONLY, 0600));
    return 1;
}

void *malloc(size_t size) {
    static void *(*next)(size_t);
    if (!next) next = (void *(*)(size_t))dlsym(RTLD_NEXT, "malloc");
    return is_refused() ? 0 : next(size);
}

void *realloc(void *old, size_t size) {
    static void *(*next)(void *, size_t);
    if (!next) next = (void *(*)(void *, size_t))dlsym(RTLD_NEXT, "realloc");
    return is_refused() ? 0 : next(old, size);
}

void *aligned_alloc(size_t alignment, size_t size) {
    static void *(*next)(size_t, size_t);
    if (!next) next = (void *(*)(size_t, size_t))dlsym(RTLD_NEXT, "aligned_alloc");
    return is_refused() ? 0 : next(alignment, size);
}
