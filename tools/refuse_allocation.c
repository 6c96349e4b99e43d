// Refuses one allocation of a program: the one with the number in REFUSED, counted from 1, or none where that is 0. How many there were so
// far stands in the file that COUNTED names, 8 bytes, so that it is known however the program ends. To be preloaded; with glibc alone.
#include <errno.h>
#include <fcntl.h>
#include <stddef.h>
#include <stdlib.h>
#include <sys/mman.h>
#include <unistd.h>

extern void *__libc_malloc(size_t size);
extern void *__libc_calloc(size_t count, size_t size);
extern void *__libc_realloc(void *old, size_t size);
extern void *__libc_memalign(size_t alignment, size_t size);

static unsigned long refused;
static unsigned long own_count;
static unsigned long *count = &own_count;

__attribute__((constructor)) static void begin(void)
{
    const char *number = getenv("REFUSED");
    const char *path = getenv("COUNTED");
    int file = path ? open(path, O_RDWR | O_CREAT | O_TRUNC, 0600) : -1;
    refused = number ? strtoul(number, NULL, 10) : 0;
    if (file >= 0 && ftruncate(file, sizeof *count) == 0) {
        void *shared = mmap(NULL, sizeof *count, PROT_READ | PROT_WRITE, MAP_SHARED, file, 0);
        if (shared != MAP_FAILED)
            count = shared;
    }
    if (file >= 0)
        close(file);
}

static int is_refused(void)
{
    if (++*count != refused)
        return 0;
    errno = ENOMEM;
    return 1;
}

void *malloc(size_t size)
{
    return is_refused() ? NULL : __libc_malloc(size);
}

void *calloc(size_t number, size_t size)
{
    return is_refused() ? NULL : __libc_calloc(number, size);
}

void *realloc(void *old, size_t size)
{
    return is_refused() ? NULL : __libc_realloc(old, size);
}

void *aligned_alloc(size_t alignment, size_t size)
{
    return is_refused() ? NULL : __libc_memalign(alignment, size);
}

void *memalign(size_t alignment, size_t size)
{
    return is_refused() ? NULL : __libc_memalign(alignment, size);
}

int posix_memalign(void **into, size_t alignment, size_t size)
{
    void *room = is_refused() ? NULL : __libc_memalign(alignment, size);
    if (room == NULL)
        return ENOMEM;
    *into = room;
    return 0;
}
