/* Has a call of a program that it is loaded into (LD_PRELOAD) to the system fail, for `checks/devices` and `checks/disk`.

   A call is a read, a write or a sync: pread, pwrite, fsync or fdatasync, and where KIND isn't `files`, read, write or
   writev. The one of the number CALL fails, from 1, and it alone: HOW tells whether by an error, `EIO` or `ENOSPC`, or by
   moving one byte, `short`; then those alone are counted that are to move several. The file CALLS has how many were
   counted: 8 bytes, as the machine stores a number. */
#define _GNU_SOURCE
#include <errno.h>
#include <fcntl.h>
#include <stdatomic.h>
#include <stdint.h>
#include <stdlib.h>
#include <string.h>
#include <sys/mman.h>
#include <sys/syscall.h>
#include <sys/uio.h>
#include <unistd.h>

static uint64_t failing;
static int is_short, is_of_files, error = EIO;
static _Atomic uint64_t here, *calls = &here;

/* The file is part of the memory, so that it is right however the program ends. */
__attribute__((constructor)) static void start(void)
{
    const char *number = getenv("CALL"), *how = getenv("HOW"), *kind = getenv("KIND"), *path = getenv("CALLS");
    failing = number ? strtoull(number, NULL, 10) : 0;
    is_short = how && !strcmp(how, "short");
    is_of_files = kind && !strcmp(kind, "files");
    if (how && !strcmp(how, "ENOSPC"))
        error = ENOSPC;
    int file = path ? open(path, O_RDWR | O_CREAT | O_TRUNC | O_CLOEXEC, 0600) : -1;
    if (file < 0 || ftruncate(file, sizeof here))
        abort();
    calls = mmap(NULL, sizeof here, PROT_READ | PROT_WRITE, MAP_SHARED, file, 0);
    if (calls == MAP_FAILED || close(file))
        abort();
}

/* Whether a call that is to move so many bytes, or a sync, is the one that fails. */
static int fails(size_t size)
{
    return (!is_short || size > 1) && ++*calls == failing;
}

/* How many bytes a call moves at most, or an error. */
static ssize_t most(size_t size)
{
    if (!fails(size))
        return size;
    if (is_short)
        return 1;
    errno = error;
    return -1;
}

/* The same of a call that streams have, too. */
static ssize_t most_of_stream(size_t size)
{
    return is_of_files ? (ssize_t)size : most(size);
}

ssize_t read(int file, void *into, size_t size)
{
    ssize_t count = most_of_stream(size);
    return count < 0 ? count : syscall(SYS_read, file, into, count);
}

ssize_t pread(int file, void *into, size_t size, off_t at)
{
    ssize_t count = most(size);
    return count < 0 ? count : syscall(SYS_pread64, file, into, count, at);
}

ssize_t write(int file, const void *from, size_t size)
{
    ssize_t count = most_of_stream(size);
    return count < 0 ? count : syscall(SYS_write, file, from, count);
}

ssize_t pwrite(int file, const void *from, size_t size, off_t at)
{
    ssize_t count = most(size);
    return count < 0 ? count : syscall(SYS_pwrite64, file, from, count, at);
}

/* One that moves a byte moves that of the first piece that has any. */
ssize_t writev(int file, const struct iovec *pieces, int number)
{
    size_t size = 0;
    for (int i = 0; i < number; i++)
        size += pieces[i].iov_len;
    ssize_t count = most_of_stream(size);
    if (count < 0 || (size_t)count == size)
        return count < 0 ? count : syscall(SYS_writev, file, pieces, number);
    while (!pieces->iov_len)
        pieces++;
    return syscall(SYS_write, file, pieces->iov_base, 1);
}

int fsync(int file)
{
    return !is_short && most(0) < 0 ? -1 : syscall(SYS_fsync, file);
}

int fdatasync(int file)
{
    return !is_short && most(0) < 0 ? -1 : syscall(SYS_fdatasync, file);
}
