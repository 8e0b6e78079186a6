/* Preloaded, this fails call FAIL_AT of malloc and realloc (counted from 1), and that one alone. Where the call was met, it
   says so by a file of the name FAIL_MARK. */
#define _GNU_SOURCE
#include <dlfcn.h>
#include <fcntl.h>
#include <stdlib.h>
#include <unistd.h>

static unsigned long calls;

static int fails(void) {
    const char *at = getenv("FAIL_AT");
    if (!at || ++calls != strtoul(at, NULL, 10)) return 0;
    const char *mark = getenv("FAIL_MARK");
    if (mark) close(open(mark, O_CREAT | O_WRONLY, 0600));
    return 1;
}

void *malloc(size_t size) {
    static void *(*next)(size_t);
    if (!next) next = (void *(*)(size_t))dlsym(RTLD_NEXT, "malloc");
    return fails() ? NULL : next(size);
}

void *realloc(void *old, size_t size) {
    static void *(*next)(void *, size_t);
    if (!next) next = (void *(*)(void *, size_t))dlsym(RTLD_NEXT, "realloc");
    return fails() ? NULL : next(old, size);
}
