/* Preloaded, it gives a name that the program has for a new file to the file of SWAP_WITH, as another process might: the temporary
   name when the new file is written (SWAP_WHEN is sync) or right before it is linked (link), or the other name right after
   that (linked). */
#define _GNU_SOURCE
#include <dlfcn.h>
#include <glob.h>
#include <stdio.h>
#include <stdlib.h>
#include <string.h>

static void swap(const char *when, const char *name)
{
    const char *wanted = getenv("SWAP_WHEN");
    if (wanted != NULL && strcmp(wanted, when) == 0 && rename(getenv("SWAP_WITH"), name) != 0)
        abort();
}

int fsync(int file)
{
    int (*real)(int) = (int (*)(int))dlsym(RTLD_NEXT, "fsync");
    glob_t found;
    if (glob("cosecmd-*.part", 0, NULL, &found) == 0) {
        swap("sync", found.gl_pathv[0]);
        globfree(&found);
    }
    return real(file);
}

int link(const char *from, const char *to)
{
    int (*real)(const char *, const char *) = (int (*)(const char *, const char *))dlsym(RTLD_NEXT, "link");
    int status;
    swap("link", from);
    status = real(from, to);
    swap("linked", to);
    return status;
}
