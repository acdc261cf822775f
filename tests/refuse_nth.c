/* Preloaded, it refuses the request for memory whose number is in REFUSE_NTH, and says so by a byte on
   the descriptor REFUSE_MARK. */
#define _GNU_SOURCE
#include <dlfcn.h>
#include <stdlib.h>
#include <unistd.h>

static long requests;

static int is_refused(void)
{
    const char *nth = getenv("REFUSE_NTH");
    if (nth == NULL || ++requests != atol(nth))
        return 0;
    return write(atoi(getenv("REFUSE_MARK")), "x", 1) == 1;
}

void *malloc(size_t size)
{
    static void *(*real)(size_t);
    if (real == NULL)
        real = (void *(*)(size_t))dlsym(RTLD_NEXT, "malloc");
    return is_refused() ? NULL : real(size);
}

void *realloc(void *old, size_t size)
{
    static void *(*real)(void *, size_t);
    if (real == NULL)
        real = (void *(*)(void *, size_t))dlsym(RTLD_NEXT, "realloc");
    return is_refused() ? NULL : real(old, size);
}
