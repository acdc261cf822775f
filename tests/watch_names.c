/* Preloaded, it ends the program where a file gets a name before the system has written it as it is. The calls named by FAIL_CALL
   (fsync, link or unlink) fail, from the one of the number FAIL_FROM to that of FAIL_TO, where the first is 1. Where NAME_WAITS is
   set, so many microseconds pass before a file gets a name. */
#define _GNU_SOURCE
#include <dlfcn.h>
#include <errno.h>
#include <stdio.h>
#include <stdlib.h>
#include <string.h>
#include <sys/stat.h>
#include <unistd.h>

/* What was written last, if anything was. */
static struct stat written;

/* The number in a variable of the environment, or this one. */
static long number(const char *variable, long other)
{
    const char *text = getenv(variable);
    return text == NULL ? other : strtol(text, NULL, 10);
}

/* Whether this call fails, the one of this number. */
static int fails(const char *call, long nth)
{
    const char *failing = getenv("FAIL_CALL");
    if (failing == NULL || strcmp(failing, call) != 0 || nth < number("FAIL_FROM", 1) || nth > number("FAIL_TO", 1))
        return 0;
    errno = EIO;
    return 1;
}

/* A file is about to get a name. */
static void watch(const char *from)
{
    struct stat file;
    usleep((useconds_t)number("NAME_WAITS", 0));
    if (lstat(from, &file) != 0)
        return;
    if (file.st_dev != written.st_dev || file.st_ino != written.st_ino || file.st_size != written.st_size
        || file.st_mtim.tv_sec != written.st_mtim.tv_sec || file.st_mtim.tv_nsec != written.st_mtim.tv_nsec)
        abort();
}

int fsync(int file)
{
    static long calls;
    int (*real)(int) = (int (*)(int))dlsym(RTLD_NEXT, "fsync");
    if (fails("fsync", ++calls))
        return -1;
    return real(file) != 0 ? -1 : fstat(file, &written);
}

int link(const char *from, const char *to)
{
    static long calls;
    int (*real)(const char *, const char *) = (int (*)(const char *, const char *))dlsym(RTLD_NEXT, "link");
    watch(from);
    return fails("link", ++calls) ? -1 : real(from, to);
}

int rename(const char *from, const char *to)
{
    int (*real)(const char *, const char *) = (int (*)(const char *, const char *))dlsym(RTLD_NEXT, "rename");
    watch(from);
    return real(from, to);
}

int unlink(const char *name)
{
    static long calls;
    int (*real)(const char *) = (int (*)(const char *))dlsym(RTLD_NEXT, "unlink");
    return fails("unlink", ++calls) ? -1 : real(name);
}
