// Breaks the call, of those by which a file is put in the place of another, whose number, counted from 1, is in BREAK:
// the program is killed before it; where BREAK_FAILS is 1 the call fails as on a full disk, and where it is 2 the
// program is stopped before it. For each such call it writes a byte to the file whose descriptor is in BROKEN. For
// LD_PRELOAD.
#define _GNU_SOURCE
#include <dlfcn.h>
#include <errno.h>
#include <fcntl.h>
#include <signal.h>
#include <stdarg.h>
#include <stdlib.h>
#include <sys/stat.h>
#include <unistd.h>

static long number_in(const char *name) {
    const char *text = getenv(name);
    return text ? atol(text) : 0;
}

static ssize_t real_write(int file, const void *bytes, size_t size) {
    static ssize_t (*real)(int, const void *, size_t);
    if (!real) real = (ssize_t (*)(int, const void *, size_t))dlsym(RTLD_NEXT, "write");
    return real(file, bytes, size);
}

static int is_broken(void) {
    static long calls;
    if (!getenv("BROKEN")) return 0;
    real_write((int)number_in("BROKEN"), "!", 1);
    if (++calls != number_in("BREAK")) return 0;
    switch (number_in("BREAK_FAILS")) {
    case 0: return kill(getpid(), SIGKILL), 0;
    case 1: return errno = ENOSPC, 1;
    default: return kill(getpid(), SIGSTOP), 0;
    }
}

// A call of the C library that answers -1 where it fails.
#define BROKEN_CALL(name, parameters, arguments)                                          \
    int name parameters {                                                                 \
        static int (*real) parameters;                                                    \
        if (!real) real = (int (*) parameters)dlsym(RTLD_NEXT, #name);                    \
        return is_broken() ? -1 : real arguments;                                         \
    }

BROKEN_CALL(flock, (int file, int operation), (file, operation))
BROKEN_CALL(fchmod, (int file, mode_t mode), (file, mode))
BROKEN_CALL(fchown, (int file, uid_t owner, gid_t group), (file, owner, group))
BROKEN_CALL(fsync, (int file), (file))
BROKEN_CALL(getentropy, (void *bytes, size_t size), (bytes, size))
BROKEN_CALL(rename, (const char *from, const char *to), (from, to))
BROKEN_CALL(statx, (int folder, const char *restrict path, int flags, unsigned mask, struct statx *restrict found),
            (folder, path, flags, mask, found))

int open(const char *path, int flags, ...) {
    static int (*real)(const char *, int, ...);
    if (!real) real = (int (*)(const char *, int, ...))dlsym(RTLD_NEXT, "open");
    va_list more;
    va_start(more, flags);
    mode_t mode = flags & O_CREAT ? va_arg(more, mode_t) : 0;
    va_end(more);
    return is_broken() ? -1 : real(path, flags, mode);
}

ssize_t write(int file, const void *bytes, size_t size) {
    int is_file = file > 2 && file != number_in("BROKEN");
    return is_file && is_broken() ? -1 : real_write(file, bytes, size);
}
