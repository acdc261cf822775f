/* Preloaded, it takes at most eight bytes in each write, and gives one byte in each read, or at most FAIL_PIECE. The
   read of the input whose number is in FAIL_INPUT fails, and so do the read of a file in FAIL_FILE and the write of the
   output in FAIL_OUTPUT; with FAIL_TAKES_NONE this write takes none. For each of these calls it writes a byte to the
   descriptor FAIL_MARK: i, f or o, and for each file that is opened n. The file FAIL_PATH, where it is there, gets
   FAIL_OPENED bytes right before a file is opened, and FAIL_LENGTH bytes before the first read of the input, where these
   are there. Where FAIL_DIGITS is there, the last argument becomes so many digits 0, which may be more than the system
   passes. */
#define _GNU_SOURCE
#include <dlfcn.h>
#include <errno.h>
#include <fcntl.h>
#include <stdarg.h>
#include <stdlib.h>
#include <string.h>
#include <unistd.h>

static ssize_t write_through(int descriptor, const void *bytes, size_t count)
{
    static ssize_t (*real)(int, const void *, size_t);
    if (real == NULL)
        real = (ssize_t (*)(int, const void *, size_t))dlsym(RTLD_NEXT, "write");
    return real(descriptor, bytes, count);
}

static long number_in(const char *name)
{
    const char *text = getenv(name);
    return text == NULL ? 0 : atol(text);
}

static void tell(char kind)
{
    if (write_through((int)number_in("FAIL_MARK"), &kind, 1) != 1)
        abort();
}

/* The file FAIL_PATH gets as many bytes as the variable says, where both are there. */
static void resize(const char *name)
{
    const char *path = getenv("FAIL_PATH");
    if (path != NULL && getenv(name) != NULL && truncate(path, number_in(name)) != 0)
        abort();
}

int open(const char *path, int flags, ...)
{
    static int (*real)(const char *, int, ...);
    va_list rest;
    mode_t mode;
    va_start(rest, flags);
    mode = (flags & O_CREAT) != 0 ? va_arg(rest, mode_t) : 0;
    va_end(rest);
    if (real == NULL)
        real = (int (*)(const char *, int, ...))dlsym(RTLD_NEXT, "open");
    tell('n');
    resize("FAIL_OPENED");
    return real(path, flags, mode);
}

/* Tells of a call, and whether it is the one that fails. */
static int fails(char kind, long nth, const char *name)
{
    tell(kind);
    errno = EIO;
    return nth == number_in(name);
}

ssize_t read(int descriptor, void *bytes, size_t count)
{
    static ssize_t (*real)(int, void *, size_t);
    static long inputs, files;
    size_t piece = getenv("FAIL_PIECE") == NULL ? 1 : (size_t)number_in("FAIL_PIECE");
    if (real == NULL)
        real = (ssize_t (*)(int, void *, size_t))dlsym(RTLD_NEXT, "read");
    if (descriptor == 0 && inputs == 0)
        resize("FAIL_LENGTH");
    if (descriptor == 0 ? fails('i', ++inputs, "FAIL_INPUT") : fails('f', ++files, "FAIL_FILE"))
        return -1;
    return real(descriptor, bytes, count > piece ? piece : count);
}

ssize_t write(int descriptor, const void *bytes, size_t count)
{
    static long outputs;
    if (descriptor != 1)
        return write_through(descriptor, bytes, count);
    if (fails('o', ++outputs, "FAIL_OUTPUT"))
        return getenv("FAIL_TAKES_NONE") == NULL ? -1 : 0;
    return write_through(descriptor, bytes, count > 8 ? 8 : count);
}

typedef int Main(int, char **, char **);
typedef void Hook(void);
typedef int Start(Main *, int, char **, Hook *, Hook *, Hook *, void *);

int __libc_start_main(Main *program, int count, char **words, Hook *init, Hook *fini, Hook *loader_fini, void *stack)
{
    Start *real = (Start *)dlsym(RTLD_NEXT, "__libc_start_main");
    size_t digits = (size_t)number_in("FAIL_DIGITS");
    if (digits != 0) {
        char *word = malloc(digits + 1);
        if (word == NULL)
            abort();
        memset(word, '0', digits);
        word[digits] = 0;
        words[count - 1] = word;
    }
    return real(program, count, words, init, fini, loader_fini, stack);
}
