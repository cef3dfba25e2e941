// Put before the C library (LD_PRELOAD), this lets a call on a file of one folder fail.
//   FAULT_FOLDER  the folder: calls on it and on files below it are counted
//   FAULT_CALL    which calls are counted: create, write, fsync, unlink, or any
//   FAULT_AT      the number of the call that fails, from 1
//   FAULT_ERROR   its errno, as a number; 0: a write writes half of its bytes, and says so
//   FAULT_EVER    where it is there, each later call of the kind fails as well
//   FAULT_COUNT   a file that holds the number of calls so far
#define _GNU_SOURCE
#include <dlfcn.h>
#include <errno.h>
#include <fcntl.h>
#include <limits.h>
#include <stdarg.h>
#include <stdio.h>
#include <stdlib.h>
#include <string.h>
#include <sys/syscall.h>
#include <sys/types.h>
#include <unistd.h>

static long calls;

static int is_below(const char *path) {
    const char *folder = getenv("FAULT_FOLDER");
    return folder && strncmp(path, folder, strlen(folder)) == 0;
}

static int is_file_inside(int descriptor) {
    char link[64], path[PATH_MAX];
    snprintf(link, sizeof link, "/proc/self/fd/%d", descriptor);
    ssize_t length = readlink(link, path, sizeof path - 1);
    if (length < 0) return 0;
    path[length] = 0;
    return is_below(path);
}

// A locked folder's files are reached by its descriptor: /proc/self/fd/3/segment-0000000002.
static int is_inside(const char *path) {
    int descriptor;
    if (path && sscanf(path, "/proc/self/fd/%d/", &descriptor) == 1) return is_file_inside(descriptor);
    return path && is_below(path);
}

// Writes the number of calls down.
static void tell(long call) {
    const char *name = getenv("FAULT_COUNT");
    char text[32];
    int file = name ? syscall(SYS_openat, AT_FDCWD, name, O_WRONLY | O_CREAT, 0666) : -1;
    if (file < 0) return;
    snprintf(text, sizeof text, "%ld\n", call);
    syscall(SYS_pwrite64, file, text, strlen(text), 0L);
    syscall(SYS_close, file);
}

// Whether this call is to fail, and then with which errno.
static int fails(const char *kind, int *error) {
    const char *wanted = getenv("FAULT_CALL"), *at = getenv("FAULT_AT"), *number = getenv("FAULT_ERROR");
    if (!wanted || (strcmp(wanted, kind) != 0 && strcmp(wanted, "any") != 0)) return 0;
    long call = __sync_add_and_fetch(&calls, 1), first = at ? atol(at) : 0;
    *error = number ? atoi(number) : EIO;
    tell(call);
    return first > 0 && (call == first || (getenv("FAULT_EVER") && call > first));
}

static int opened(const char *name, const char *path, int flags, mode_t mode) {
    int error;
    if ((flags & O_CREAT) && is_inside(path) && fails("create", &error)) {
        errno = error;
        return -1;
    }
    int (*next)(const char *, int, ...) = dlsym(RTLD_NEXT, name);
    return next(path, flags, mode);
}

#define OPEN(name)                                      \
    int name(const char *path, int flags, ...) {        \
        va_list rest;                                   \
        va_start(rest, flags);                          \
        mode_t mode = va_arg(rest, mode_t);             \
        va_end(rest);                                   \
        return opened(#name, path, flags, mode);        \
    }
OPEN(open)
OPEN(open64)

ssize_t write(int descriptor, const void *bytes, size_t count) {
    int error;
    ssize_t (*next)(int, const void *, size_t) = dlsym(RTLD_NEXT, "write");
    if (is_file_inside(descriptor) && fails("write", &error)) {
        if (error == 0) return next(descriptor, bytes, count / 2);
        errno = error;
        return -1;
    }
    return next(descriptor, bytes, count);
}

int fsync(int descriptor) {
    int error;
    int (*next)(int) = dlsym(RTLD_NEXT, "fsync");
    if (is_file_inside(descriptor) && fails("fsync", &error)) {
        errno = error;
        return -1;
    }
    return next(descriptor);
}

int unlink(const char *path) {
    int error;
    int (*next)(const char *) = dlsym(RTLD_NEXT, "unlink");
    if (is_inside(path) && fails("unlink", &error)) {
        errno = error;
        return -1;
    }
    return next(path);
}
