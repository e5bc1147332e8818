// Preloaded over a program (LD_PRELOAD): writes down, in the file that ORDER_LOG names, each call by which files are made, written, written out and
// renamed, in the order in which they are done. ORDER_FAIL names a call that fails: `fsync 3` the third fsync, `rename 1` and `write 2` likewise; the
// writes to standard output and standard error are not counted. fsync and rename fail with EIO, write with ENOSPC.
#define _GNU_SOURCE
#include <dlfcn.h>
#include <errno.h>
#include <fcntl.h>
#include <stdarg.h>
#include <stdio.h>
#include <stdlib.h>
#include <string.h>
#include <sys/stat.h>
#include <sys/types.h>
#include <unistd.h>

// The next function of that name, which is the system's own.
#define NEXT(type, name) ((type)dlsym(RTLD_NEXT, name))
typedef ssize_t (*writer)(int, const void *, size_t);
typedef int (*opener)(const char *, int, ...);

// The last part of a name.
static const char *last_part(const char *name) {
    const char *slash = strrchr(name, '/');
    return slash ? slash + 1 : name;
}

// Writes down one call: what it is, and the last parts of one or two names.
static void put(const char *what, const char *name, const char *other) {
    char line[1024];
    const char *log = getenv("ORDER_LOG");
    int kept = errno, n = snprintf(line, sizeof line, "%s %s %s\n", what, last_part(name), last_part(other));
    int fd = log ? NEXT(opener, "open")(log, O_WRONLY | O_APPEND | O_CREAT, 0644) : -1;
    if (fd < 0 || n >= (int)sizeof line || NEXT(writer, "write")(fd, line, n) != n) abort();
    close(fd);
    errno = kept;
}

// Writes down a call on a file that is open, by the name that the system has for it.
static void put_open(const char *what, int fd) {
    char link[64], name[8192];
    snprintf(link, sizeof link, "/proc/self/fd/%d", fd);
    ssize_t n = readlink(link, name, sizeof name - 1);
    name[n < 0 ? 0 : n] = 0;
    put(what, name, "");
}

// Whether this call, of which so many came before, is the one that is to fail.
static int fails(const char *what, int *before, int error) {
    char call[64];
    const char *asked = getenv("ORDER_FAIL");
    snprintf(call, sizeof call, "%s %d", what, ++*before);
    if (!asked || strcmp(asked, call)) return 0;
    errno = error;
    return 1;
}

// A file that is opened; written down if it may be written: as made, if no file of that name may have been there.
int open(const char *name, int flags, ...) {
    va_list rest;
    va_start(rest, flags);
    int fd = NEXT(opener, "open")(name, flags, flags & O_CREAT ? va_arg(rest, mode_t) : 0);
    va_end(rest);
    int made = (flags & O_CREAT) && (flags & O_EXCL);
    if (fd >= 0 && (flags & O_ACCMODE) != O_RDONLY) put_open(made ? "create" : "open", fd);
    return fd;
}

// Bytes to standard output, to standard error, or to a file.
ssize_t write(int fd, const void *bytes, size_t count) {
    static int before;
    if (fd > 2 && fails("write", &before, ENOSPC)) return -1;
    ssize_t n = NEXT(writer, "write")(fd, bytes, count);
    if (n > 0 && fd > 2) put_open("write", fd);
    if (n > 0 && fd <= 2) put(fd == 1 ? "print" : "tell", "", "");
    return n;
}

// A file or a folder that is written out.
int fsync(int fd) {
    static int before;
    struct stat found;
    if (fails("fsync", &before, EIO)) return -1;
    int done = NEXT(int (*)(int), "fsync")(fd);
    if (done == 0 && fstat(fd, &found) == 0) put_open(S_ISDIR(found.st_mode) ? "fsync folder" : "fsync file", fd);
    return done;
}

// A file that takes another name.
int rename(const char *name, const char *other) {
    static int before;
    if (fails("rename", &before, EIO)) return -1;
    int done = NEXT(int (*)(const char *, const char *), "rename")(name, other);
    if (done == 0) put("rename", name, other);
    return done;
}

// A name that is taken away.
int unlink(const char *name) {
    int done = NEXT(int (*)(const char *), "unlink")(name);
    if (done == 0) put("remove", name, "");
    return done;
}
