// Preloaded into a process, it refuses one of the process's requests for memory, and grants all others.
//
// REFUSE_REQUEST in the environment says which: 1 for the first. REFUSE_NOTICE is the number of an open file, into
// which one byte goes when that request comes, so that whoever started the process knows that it came.
#include <errno.h>
#include <stddef.h>
#include <stdlib.h>
#include <unistd.h>

extern void *__libc_malloc(size_t size);
extern void *__libc_calloc(size_t count, size_t size);
extern void *__libc_realloc(void *block, size_t size);
extern void *__libc_memalign(size_t alignment, size_t size);

static unsigned long requests;

static unsigned long setting(const char *name)
{
    const char *value = getenv(name);
    return value ? strtoul(value, NULL, 10) : 0;
}

// Counts a request, and says whether it is the one.
static int is_refused(void)
{
    requests++;
    if (requests != setting("REFUSE_REQUEST"))
        return 0;
    if (write((int)setting("REFUSE_NOTICE"), "!", 1) != 1)
        abort();
    errno = ENOMEM;
    return 1;
}

void *malloc(size_t size)
{
    return is_refused() ? NULL : __libc_malloc(size);
}

void *calloc(size_t count, size_t size)
{
    return is_refused() ? NULL : __libc_calloc(count, size);
}

void *realloc(void *block, size_t size)
{
    return is_refused() ? NULL : __libc_realloc(block, size);
}

void *aligned_alloc(size_t alignment, size_t size)
{
    return is_refused() ? NULL : __libc_memalign(alignment, size);
}

int posix_memalign(void **block, size_t alignment, size_t size)
{
    if (is_refused())
        return ENOMEM;
    *block = __libc_memalign(alignment, size);
    return *block ? 0 : ENOMEM;
}
