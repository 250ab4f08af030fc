/* Refuses growths of a program's memory, as a system does that has none left.
 *
 * Built as a shared library and named by LD_PRELOAD, it stands before the C library's allocation. A
 * growth is a call of malloc, calloc, realloc, reallocarray, aligned_alloc, posix_memalign,
 * memalign, valloc, pvalloc, or mmap of no file. Growths are numbered from 1, from the moment on at
 * which the loader has made this library ready, so before anything of the program runs. A realloc
 * to no byte gives memory back, and isn't one. What the C library takes from the system for a
 * growth isn't counted, since it asks for that by no name before which a library could stand.
 *
 * | Variable | Says |
 * |---|---|
 * | REFUSE_FROM | the number of the first growth that is refused; without it none is |
 * | REFUSE_TO | the number of the last one; without it all later ones are refused |
 * | REFUSE_TOLD | the descriptor to which one byte is written where the first growth is refused |
 *
 * A growth that is refused changes nothing, and answers as the C library does where memory lacks,
 * with ENOMEM.
 */
#define _GNU_SOURCE
#include <dlfcn.h>
#include <errno.h>
#include <stdatomic.h>
#include <stddef.h>
#include <stdlib.h>
#include <sys/mman.h>
#include <unistd.h>

static atomic_ulong growths;
static unsigned long first_refused, last_refused;
static int told = -1;

static unsigned long number(const char *name, unsigned long otherwise)
{
    const char *text = getenv(name);
    return text ? strtoul(text, NULL, 10) : otherwise;
}

__attribute__((constructor)) static void begin(void)
{
    told = (int)number("REFUSE_TOLD", (unsigned long)-1);
    last_refused = number("REFUSE_TO", (unsigned long)-1);
    atomic_store(&growths, 0);
    first_refused = number("REFUSE_FROM", 0);
}

/* Counts a growth, and says whether it is refused. */
static int is_refused(void)
{
    unsigned long place = atomic_fetch_add(&growths, 1) + 1;
    if (first_refused == 0 || place < first_refused || place > last_refused)
        return 0;
    if (place == first_refused && told >= 0 && write(told, "!", 1) != 1)
        _exit(125);
    errno = ENOMEM;
    return 1;
}

/* The function of this name that the program would call without this library. */
static void *next(const char *name)
{
    void *found = dlsym(RTLD_NEXT, name);
    if (!found)
        _exit(125);
    return found;
}

#define NEXT(name) ((__typeof__(&name))next(#name))

void *malloc(size_t size)
{
    static __typeof__(&malloc) taken;
    if (!taken)
        taken = NEXT(malloc);
    return is_refused() ? NULL : taken(size);
}

void *calloc(size_t count, size_t size)
{
    static __typeof__(&calloc) taken;
    if (!taken)
        taken = NEXT(calloc);
    return is_refused() ? NULL : taken(count, size);
}

void *realloc(void *old, size_t size)
{
    static __typeof__(&realloc) taken;
    if (!taken)
        taken = NEXT(realloc);
    return size > 0 && is_refused() ? NULL : taken(old, size);
}

void *reallocarray(void *old, size_t count, size_t size)
{
    static __typeof__(&reallocarray) taken;
    if (!taken)
        taken = NEXT(reallocarray);
    return count > 0 && size > 0 && is_refused() ? NULL : taken(old, count, size);
}

void *aligned_alloc(size_t alignment, size_t size)
{
    return is_refused() ? NULL : NEXT(aligned_alloc)(alignment, size);
}

void *memalign(size_t alignment, size_t size);

void *memalign(size_t alignment, size_t size)
{
    return is_refused() ? NULL : NEXT(memalign)(alignment, size);
}

void *valloc(size_t size)
{
    return is_refused() ? NULL : NEXT(valloc)(size);
}

void *pvalloc(size_t size);

void *pvalloc(size_t size)
{
    return is_refused() ? NULL : NEXT(pvalloc)(size);
}

int posix_memalign(void **at, size_t alignment, size_t size)
{
    int before = errno;
    if (!is_refused())
        return NEXT(posix_memalign)(at, alignment, size);
    errno = before;
    return ENOMEM;
}

void *mmap(void *at, size_t size, int protection, int flags, int file, off_t offset)
{
    if ((flags & MAP_ANONYMOUS) && is_refused())
        return MAP_FAILED;
    return NEXT(mmap)(at, size, protection, flags, file, offset);
}
