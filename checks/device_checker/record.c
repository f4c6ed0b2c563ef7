/* Records what a program that it is loaded into (LD_PRELOAD) does to the files of a folder, for `checks/forgets`.

   The file TRACE gets an entry for each call that made a file or a folder, wrote, changed a size or synced, in or of the
   folder FOLDER, after the call and before the program goes on. One call is made at a time, so that they have an order.
   An entry is a `struct entry`, the path in the folder, and the bytes that were written. A sync takes DELAY microseconds
   before it is recorded: an answer that doesn't wait for it is out before.

   FOLDER is a path without links. Calls that failed aren't recorded, nor are those that aren't here: who reads the trace
   finds that the files are otherwise then. */
#define _GNU_SOURCE
#include <fcntl.h>
#include <limits.h>
#include <pthread.h>
#include <stdarg.h>
#include <stdint.h>
#include <stdio.h>
#include <stdlib.h>
#include <string.h>
#include <sys/stat.h>
#include <sys/syscall.h>
#include <sys/uio.h>
#include <unistd.h>

enum kind { MADE_FILE, MADE_FOLDER, WROTE, SIZED, SYNCED };

struct entry {
    uint32_t kind, path_size;
    uint64_t at, size;
};

static const char *folder;
static size_t folder_size;
static int trace = -1;
static unsigned delay;
static pthread_mutex_t order = PTHREAD_MUTEX_INITIALIZER;

__attribute__((constructor)) static void start(void)
{
    const char *path = getenv("TRACE"), *slow = getenv("DELAY"), *told = getenv("FOLDER");
    trace = path ? open(path, O_WRONLY | O_CREAT | O_APPEND | O_CLOEXEC, 0600) : -1;
    if (!told || trace < 0)
        abort();
    delay = slow ? strtoul(slow, NULL, 10) : 0;
    folder_size = strlen(told);
    folder = told;
}

/* The part of a path that is in the folder, which is empty for the folder itself, or NULL. */
static const char *inside(const char *path)
{
    if (!folder || strncmp(path, folder, folder_size) || (path[folder_size] && path[folder_size] != '/'))
        return NULL;
    return path + folder_size + (path[folder_size] == '/');
}

/* The same of an open file, whose path is stored. */
static const char *inside_of(int file, char path[PATH_MAX])
{
    char link[32];
    snprintf(link, sizeof link, "/proc/self/fd/%d", file);
    ssize_t size = readlink(link, path, PATH_MAX - 1);
    path[size < 0 ? 0 : size] = 0;
    return inside(path);
}

/* Adds an entry, whole. */
static void record(enum kind kind, const char *path, uint64_t at, const void *bytes, uint64_t size)
{
    struct entry entry = {kind, strlen(path), at, size};
    struct iovec pieces[] = {{&entry, sizeof entry}, {(void *)path, entry.path_size}, {(void *)bytes, bytes ? size : 0}};
    ssize_t whole = sizeof entry + entry.path_size + pieces[2].iov_len;
    if (syscall(SYS_writev, trace, pieces, 3) != whole)
        abort();
}

int openat(int at, const char *path, int flags, ...)
{
    mode_t mode = 0;
    if (flags & (O_CREAT | __O_TMPFILE)) {
        va_list more;
        va_start(more, flags);
        mode = va_arg(more, mode_t);
        va_end(more);
    }
    char real[PATH_MAX];
    const char *name;
    pthread_mutex_lock(&order);
    int was_there = !faccessat(at, path, F_OK, 0);
    int file = syscall(SYS_openat, at, path, flags, mode);
    if (file >= 0 && flags & (O_CREAT | O_TRUNC) && (name = inside_of(file, real))) {
        if (!was_there)
            record(MADE_FILE, name, 0, NULL, 0);
        else if (flags & O_TRUNC)
            record(SIZED, name, 0, NULL, 0);
    }
    pthread_mutex_unlock(&order);
    return file;
}

int open(const char *path, int flags, ...)
{
    va_list more;
    va_start(more, flags);
    mode_t mode = flags & (O_CREAT | __O_TMPFILE) ? va_arg(more, mode_t) : 0;
    va_end(more);
    return openat(AT_FDCWD, path, flags, mode);
}

int mkdir(const char *path, mode_t mode)
{
    char real[PATH_MAX];
    const char *name;
    pthread_mutex_lock(&order);
    int failed = syscall(SYS_mkdir, path, mode);
    if (!failed && realpath(path, real) && (name = inside(real)))
        record(MADE_FOLDER, name, 0, NULL, 0);
    pthread_mutex_unlock(&order);
    return failed;
}

ssize_t pwrite(int file, const void *from, size_t size, off_t at)
{
    char path[PATH_MAX];
    pthread_mutex_lock(&order);
    ssize_t count = syscall(SYS_pwrite64, file, from, size, at);
    const char *name = count > 0 ? inside_of(file, path) : NULL;
    if (name)
        record(WROTE, name, at, from, count);
    pthread_mutex_unlock(&order);
    return count;
}

/* This one may wait, as on a socket: so only where it is to a file of the folder does it keep others waiting. */
ssize_t write(int file, const void *from, size_t size)
{
    char path[PATH_MAX];
    const char *name = inside_of(file, path);
    if (!name)
        return syscall(SYS_write, file, from, size);
    pthread_mutex_lock(&order);
    ssize_t count = syscall(SYS_write, file, from, size);
    if (count > 0)
        record(WROTE, name, lseek(file, 0, SEEK_CUR) - count, from, count);
    pthread_mutex_unlock(&order);
    return count;
}

int ftruncate(int file, off_t size)
{
    char path[PATH_MAX];
    pthread_mutex_lock(&order);
    int failed = syscall(SYS_ftruncate, file, size);
    const char *name = failed ? NULL : inside_of(file, path);
    if (name)
        record(SIZED, name, size, NULL, 0);
    pthread_mutex_unlock(&order);
    return failed;
}

static int sync_by(long call, int file)
{
    char path[PATH_MAX];
    pthread_mutex_lock(&order);
    const char *name = inside_of(file, path);
    if (name)
        usleep(delay);
    int failed = syscall(call, file);
    if (name && !failed)
        record(SYNCED, name, 0, NULL, 0);
    pthread_mutex_unlock(&order);
    return failed;
}

int fsync(int file)
{
    return sync_by(SYS_fsync, file);
}

int fdatasync(int file)
{
    return sync_by(SYS_fdatasync, file);
}

/* Their names where offsets have 64 bits, which they have here in any case. */
int open64(const char *path, int flags, ...) __attribute__((alias("open")));
int openat64(int at, const char *path, int flags, ...) __attribute__((alias("openat")));
ssize_t pwrite64(int file, const void *from, size_t size, off64_t at) __attribute__((alias("pwrite")));
int ftruncate64(int file, off64_t size) __attribute__((alias("ftruncate")));
