/* Lets one request of a program to its system fail, as variables of its environment say. Preloaded (LD_PRELOAD).

   REFUSE_LINE n   growths of the first thread count from when line n of standard input was read until line n + 1 is;
                   line 0 is what comes before the first
   REFUSE_AT k     the k-th of these growths is refused
   REFUSE_REST     all after it are refused, too, until line n + 1 is read
   REFUSE_OTHERS   growths of all threads but the first count, in place of those of a line
   REFUSE_COUNT    at the end, `growths N` goes to standard error

   Of standard input IN_.., of the file that is opened FILE_..:
   IN_BYTE         each read gives one byte
   IN_FAIL k       the k-th read fails
   IN_INTERRUPT k  the k-th read is interrupted
   IN_END k        the k-th read and all after it give nothing

   Of standard output:
   OUT_BYTE        each write takes one byte
   OUT_FAIL j      after j bytes a write fails, once
   OUT_INTERRUPT j after j bytes a write is interrupted, once
   OUT_NONE j      after j bytes a write takes nothing, once */
#define _GNU_SOURCE
#include <dlfcn.h>
#include <errno.h>
#include <stdio.h>
#include <stdlib.h>
#include <sys/syscall.h>
#include <unistd.h>

static long setting(const char *device, const char *what) {
    char name[32];
    snprintf(name, sizeof name, "%s_%s", device, what);
    const char *value = getenv(name);
    return value == NULL ? -1 : atol(value);
}

/* Growths. */

static long line, growths;

static int counts(void) {
    int is_first = gettid() == getpid();
    return setting("REFUSE", "OTHERS") >= 0 ? !is_first : is_first && line == setting("REFUSE", "LINE");
}

static int is_refused(void) {
    if (!counts())
        return 0;
    long at = setting("REFUSE", "AT"), now = __atomic_add_fetch(&growths, 1, __ATOMIC_RELAXED);
    if (now != at && !(setting("REFUSE", "REST") >= 0 && at >= 0 && now > at))
        return 0;
    errno = ENOMEM;
    return 1;
}

void *malloc(size_t size) {
    static void *(*real)(size_t);
    if (real == NULL)
        real = dlsym(RTLD_NEXT, "malloc");
    return is_refused() ? NULL : real(size);
}

void *realloc(void *old, size_t size) {
    static void *(*real)(void *, size_t);
    if (real == NULL)
        real = dlsym(RTLD_NEXT, "realloc");
    return is_refused() ? NULL : real(old, size);
}

/* At the end, which is that of `main` or a call of `_exit`. */
__attribute__((destructor)) static void tell(void) {
    static int told;
    char text[64];
    if (told || setting("REFUSE", "COUNT") < 0)
        return;
    told = 1;
    if (write(2, text, snprintf(text, sizeof text, "growths %ld\n", growths)) < 0)
        _exit(4);
}

void _exit(int status) {
    tell();
    syscall(SYS_exit_group, status);
    __builtin_unreachable();
}

/* Reads. */

typedef ssize_t reading(int, void *, size_t);

/* The bytes up to a newline, so that it is known at which line the program is. */
static ssize_t read_line(reading *real, char *to, size_t count) {
    size_t got = 0;
    while (got < count && (got == 0 || to[got - 1] != '\n')) {
        ssize_t n = real(0, to + got, 1);
        if (n <= 0 && got == 0)
            return n;
        if (n <= 0)
            break;
        got += 1;
    }
    line += to[got - 1] == '\n';
    return got;
}

ssize_t read(int device, void *to, size_t count) {
    static reading *real;
    static long times[2];
    const char *name = device == 0 ? "IN" : "FILE";
    if (real == NULL)
        real = dlsym(RTLD_NEXT, "read");
    times[device != 0] += 1;
    long now = times[device != 0], end = setting(name, "END");
    if (end >= 0 && now >= end)
        return 0;
    if (now == setting(name, "FAIL") || now == setting(name, "INTERRUPT")) {
        errno = now == setting(name, "FAIL") ? EIO : EINTR;
        return -1;
    }
    if (count > 1 && setting(name, "BYTE") >= 0)
        count = 1;
    if (device == 0 && setting("REFUSE", "LINE") >= 0)
        return read_line(real, to, count);
    return real(device, to, count);
}

/* Writes. */

ssize_t write(int device, const void *from, size_t count) {
    static ssize_t (*real)(int, const void *, size_t);
    static long written, met;
    static const char *const ways[] = {"FAIL", "INTERRUPT", "NONE"};
    if (real == NULL)
        real = dlsym(RTLD_NEXT, "write");
    if (device != 1)
        return real(device, from, count);
    if (count > 1 && setting("OUT", "BYTE") >= 0)
        count = 1;
    for (int way = 0; way < 3 && !met; way += 1) {
        long at = setting("OUT", ways[way]);
        if (at == written) {
            met = 1;
            errno = way == 0 ? EIO : EINTR;
            return way == 2 ? 0 : -1;
        }
        if (at > written && count > (size_t)(at - written))
            count = at - written;
    }
    ssize_t taken = real(device, from, count);
    written += taken > 0 ? taken : 0;
    return taken;
}
