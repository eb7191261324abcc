/* Makes calls fail of the program that it is preloaded into: those that open, read, seek, write, sync, rename or remove a file of
 * the folder FAILING_FOLDER. The call whose number, counted from 1, is FAILING_CALL fails, with EIO, and its name is written to the
 * descriptor FAILING_REPORT. All three are in the environment. */
#define _GNU_SOURCE
#include <dlfcn.h>
#include <errno.h>
#include <fcntl.h>
#include <stdarg.h>
#include <stdio.h>
#include <stdlib.h>
#include <string.h>
#include <sys/uio.h>
#include <unistd.h>

#define REAL(type, name) ((type)dlsym(RTLD_NEXT, name))
#define DESCRIPTORS 1024

static long calls = 0;
static char is_watched[DESCRIPTORS];

static int is_within(const char *path) {
    const char *folder = getenv("FAILING_FOLDER");
    return folder != NULL && strncmp(path, folder, strlen(folder)) == 0;
}

static int is_file(int descriptor) { return descriptor >= 0 && descriptor < DESCRIPTORS && is_watched[descriptor]; }

static int fails(const char *name) {
    calls += 1;
    if (calls != atol(getenv("FAILING_CALL")))
        return 0;
    dprintf(atoi(getenv("FAILING_REPORT")), "%s\n", name);
    errno = EIO;
    return 1;
}

static int opened(const char *path, int descriptor) {
    if (descriptor >= 0 && descriptor < DESCRIPTORS)
        is_watched[descriptor] = is_within(path);
    return descriptor;
}

#define OPEN(name)                                                                                                     \
    int name(const char *path, int flags, ...) {                                                                       \
        va_list more;                                                                                                  \
        va_start(more, flags);                                                                                         \
        mode_t mode = va_arg(more, mode_t);                                                                            \
        va_end(more);                                                                                                  \
        if (is_within(path) && fails("open"))                                                                          \
            return -1;                                                                                                 \
        return opened(path, REAL(int (*)(const char *, int, mode_t), #name)(path, flags, mode));                       \
    }

#define OPEN_AT(name)                                                                                                  \
    int name(int folder, const char *path, int flags, ...) {                                                           \
        va_list more;                                                                                                  \
        va_start(more, flags);                                                                                         \
        mode_t mode = va_arg(more, mode_t);                                                                            \
        va_end(more);                                                                                                  \
        if (is_within(path) && fails("open"))                                                                          \
            return -1;                                                                                                 \
        return opened(path, REAL(int (*)(int, const char *, int, mode_t), #name)(folder, path, flags, mode));          \
    }

/* A call with a descriptor, whose other parameters are these. */
#define WITH_FILE(type, name, parameters, types, arguments)                                                            \
    type name parameters {                                                                                             \
        if (is_file(descriptor) && fails(#name))                                                                       \
            return -1;                                                                                                 \
        return REAL(type(*) types, #name) arguments;                                                                   \
    }

/* A call with the path of a file. */
#define WITH_PATH(name, parameters, types, arguments)                                                                  \
    int name parameters {                                                                                              \
        if (is_within(path) && fails(#name))                                                                           \
            return -1;                                                                                                 \
        return REAL(int(*) types, #name) arguments;                                                                    \
    }

OPEN(open)
OPEN(open64)
OPEN_AT(openat)
OPEN_AT(openat64)
WITH_FILE(ssize_t, read, (int descriptor, void *into, size_t size), (int, void *, size_t), (descriptor, into, size))
WITH_FILE(ssize_t, readv, (int descriptor, const struct iovec *into, int count), (int, const struct iovec *, int), (descriptor, into, count))
WITH_FILE(ssize_t, write, (int descriptor, const void *from, size_t size), (int, const void *, size_t), (descriptor, from, size))
WITH_FILE(ssize_t, writev, (int descriptor, const struct iovec *from, int count), (int, const struct iovec *, int), (descriptor, from, count))
WITH_FILE(off_t, lseek, (int descriptor, off_t place, int from), (int, off_t, int), (descriptor, place, from))
WITH_FILE(off64_t, lseek64, (int descriptor, off64_t place, int from), (int, off64_t, int), (descriptor, place, from))
WITH_FILE(int, fsync, (int descriptor), (int), (descriptor))
WITH_FILE(int, fdatasync, (int descriptor), (int), (descriptor))
WITH_PATH(rename, (const char *path, const char *other), (const char *, const char *), (path, other))
WITH_PATH(unlink, (const char *path), (const char *), (path))
WITH_PATH(remove, (const char *path), (const char *), (path))

int close(int descriptor) {
    if (descriptor >= 0 && descriptor < DESCRIPTORS)
        is_watched[descriptor] = 0;
    return REAL(int (*)(int), "close")(descriptor);
}
