/* Loaded before the C library: makes one call of writing, flushing, renaming and the like fail, or kills the process at it.
 * FAULT_AT    which call in turn, from 1; 0 none
 * FAULT_MODE  fail: that one fails     from: that and all later ones fail     half: of a write half is done, and then it fails
 *             kill: killed before      after: killed after                    torn: of a write half is done, and then it is killed
 * FAULT_ERRNO how it fails
 * FAULT_COUNT a file that gets the number of calls when the process ends
 * FAULT_TRACE a file that gets a line for each call: its name, and the file's
 * Standard error is left alone, so that a sentence can be read. */
#define _GNU_SOURCE
#include <dlfcn.h>
#include <errno.h>
#include <fcntl.h>
#include <signal.h>
#include <stdarg.h>
#include <stdio.h>
#include <stdlib.h>
#include <string.h>
#include <sys/stat.h>
#include <sys/types.h>
#include <unistd.h>

static long calls;
/* Half of a write is done, and the caller goes on with the rest. */
static int half_done;

static long number(const char *name) {
    const char *text = getenv(name);
    return text ? atol(text) : 0;
}

static int mode(const char *name) {
    const char *text = getenv("FAULT_MODE");
    return text && strcmp(text, name) == 0;
}

static void killed(void) {
    kill(getpid(), SIGKILL);
    for (;;)
        pause();
}

#define REAL(name) ((__typeof__(&name))dlsym(RTLD_NEXT, #name))

/* Writes a line of the trace. */
static void trace(const char *call, const char *path) {
    const char *file = getenv("FAULT_TRACE"), *name = strrchr(path, '/');
    char line[512];
    if (!file)
        return;
    int length = snprintf(line, sizeof line, "%s %s\n", call, name ? name + 1 : path);
    int fd = REAL(open64)(file, O_WRONLY | O_CREAT | O_APPEND, 0600);
    if (REAL(write)(fd, line, (size_t)length) < 0)
        _exit(99);
    close(fd);
}

/* The same of a file that is open. */
static void trace_open(const char *call, int fd) {
    char link[64], path[512] = "";
    snprintf(link, sizeof link, "/proc/self/fd/%d", fd);
    if (readlink(link, path, sizeof path - 1) >= 0)
        trace(call, path);
}

/* Whether this call fails. */
static int fails(void) {
    long at = number("FAULT_AT");
    calls++;
    errno = (int)number("FAULT_ERRNO");
    if (half_done) {
        half_done = 0;
        return 1;
    }
    if (at == 0 || calls < at || (calls > at && !mode("from")))
        return 0;
    if (mode("kill"))
        killed();
    return !mode("after") && !mode("torn");
}

static void done(void) {
    if (calls == number("FAULT_AT") && (mode("after") || mode("torn")))
        killed();
}

ssize_t write(int fd, const void *bytes, size_t count) {
    if (fd == 2)
        return REAL(write)(fd, bytes, count);
    trace_open("write", fd);
    if (fails()) {
        if (!mode("half") || calls > number("FAULT_AT") || count < 2)
            return -1;
        half_done = 1;
        return REAL(write)(fd, bytes, count / 2);
    }
    if (calls == number("FAULT_AT") && mode("torn"))
        count = count / 2;
    ssize_t written = REAL(write)(fd, bytes, count);
    done();
    return written;
}

#define CALL(type, name, parameters, arguments, traced) \
    type name parameters {                              \
        traced;                                         \
        if (fails())                                    \
            return -1;                                  \
        type result = REAL(name) arguments;             \
        done();                                         \
        return result;                                  \
    }

CALL(int, fsync, (int fd), (fd), trace_open("fsync", fd))
CALL(int, fdatasync, (int fd), (fd), trace_open("fdatasync", fd))
CALL(int, ftruncate64, (int fd, off64_t length), (fd, length), trace_open("ftruncate", fd))
CALL(int, rename, (const char *from, const char *to), (from, to), trace("rename", to))
CALL(int, unlink, (const char *path), (path), trace("unlink", path))
CALL(int, mkdir, (const char *path, mode_t bits), (path, bits), trace("mkdir", path))

int open64(const char *path, int flags, ...) {
    va_list rest;
    va_start(rest, flags);
    mode_t bits = va_arg(rest, mode_t);
    va_end(rest);
    if (!(flags & O_CREAT))
        return REAL(open64)(path, flags, bits);
    trace("create", path);
    if (fails())
        return -1;
    int result = REAL(open64)(path, flags, bits);
    done();
    return result;
}

__attribute__((destructor)) static void counted(void) {
    const char *file = getenv("FAULT_COUNT");
    char digits[24];
    int place = sizeof digits;
    if (!file)
        return;
    long left = calls;
    do
        digits[--place] = (char)('0' + left % 10);
    while (left /= 10);
    int fd = REAL(open64)(file, O_WRONLY | O_CREAT | O_TRUNC, 0600);
    if (REAL(write)(fd, digits + place, sizeof digits - place) < 0)
        _exit(99);
    close(fd);
}
