/* Refuses a growth of the memory of a program that it is loaded into (LD_PRELOAD), for `checks/growths`.

   A growth is a call of malloc, calloc, realloc, aligned_alloc, memalign or posix_memalign that the program makes, and
   not a library. The growth of the number GROWTH is refused, from 1, and it alone; none is where that isn't told. The
   file GROWTHS, where that is told, has how many growths there were: 8 bytes, as the machine stores a number. */
#define _GNU_SOURCE
#include <errno.h>
#include <fcntl.h>
#include <link.h>
#include <stdatomic.h>
#include <stdint.h>
#include <stdlib.h>
#include <sys/mman.h>
#include <unistd.h>

/* Those of glibc, under its names. */
extern void *__libc_malloc(size_t size);
extern void *__libc_calloc(size_t count, size_t size);
extern void *__libc_realloc(void *old, size_t size);
extern void *__libc_memalign(size_t alignment, size_t size);

/* Where the program is in memory. */
static uintptr_t begin, end;

static uint64_t refused;
static _Atomic uint64_t here, *growths = &here;

/* The first that is told is the program. */
static int find(struct dl_phdr_info *info, size_t size, void *given)
{
    (void)size, (void)given;
    begin = UINTPTR_MAX;
    for (int i = 0; i < info->dlpi_phnum; i++) {
        const ElfW(Phdr) *segment = &info->dlpi_phdr[i];
        uintptr_t from = info->dlpi_addr + segment->p_vaddr;
        if (segment->p_type != PT_LOAD)
            continue;
        if (from < begin)
            begin = from;
        if (from + segment->p_memsz > end)
            end = from + segment->p_memsz;
    }
    return 1;
}

/* The file is part of the memory, so that it is right however the program ends. */
static void count_in(const char *path)
{
    int file = open(path, O_RDWR | O_CREAT | O_TRUNC | O_CLOEXEC, 0600);
    if (file < 0 || ftruncate(file, sizeof here))
        abort();
    growths = mmap(NULL, sizeof here, PROT_READ | PROT_WRITE, MAP_SHARED, file, 0);
    if (growths == MAP_FAILED || close(file))
        abort();
}

__attribute__((constructor)) static void start(void)
{
    const char *number = getenv("GROWTH"), *path = getenv("GROWTHS");
    refused = number ? strtoull(number, NULL, 10) : 0;
    if (path)
        count_in(path);
    dl_iterate_phdr(find, NULL);
}

/* Whether a growth that is asked for from this place is to be refused. */
static int refuses(void *place)
{
    if ((uintptr_t)place < begin || (uintptr_t)place >= end || ++*growths != refused)
        return 0;
    errno = ENOMEM;
    return 1;
}

#define IS_REFUSED refuses(__builtin_return_address(0))

void *malloc(size_t size)
{
    return IS_REFUSED ? NULL : __libc_malloc(size);
}

void *calloc(size_t count, size_t size)
{
    return IS_REFUSED ? NULL : __libc_calloc(count, size);
}

void *realloc(void *old, size_t size)
{
    return IS_REFUSED ? NULL : __libc_realloc(old, size);
}

void *memalign(size_t alignment, size_t size)
{
    return IS_REFUSED ? NULL : __libc_memalign(alignment, size);
}

void *aligned_alloc(size_t alignment, size_t size)
{
    return IS_REFUSED ? NULL : __libc_memalign(alignment, size);
}

int posix_memalign(void **made, size_t alignment, size_t size)
{
    if (IS_REFUSED)
        return ENOMEM;
    *made = __libc_memalign(alignment, size);
    return *made ? 0 : ENOMEM;
}
