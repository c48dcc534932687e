/* Preloaded under a program, it makes one of the C library's allocations fail.
 *
 * FAIL_ALLOCATION is the number of that call, from 1. FAIL_ALLOCATION_REPORT is the path of a file that is made if the
 * call came and failed. Each call that allocates is counted, and so is one that shrinks a block. */
#define _GNU_SOURCE
#include <errno.h>
#include <fcntl.h>
#include <stddef.h>
#include <stdlib.h>
#include <unistd.h>

/* glibc's own names of the calls that are replaced here. */
void *__libc_malloc(size_t size);
void *__libc_calloc(size_t count, size_t size);
void *__libc_realloc(void *block, size_t size);
void *__libc_memalign(size_t alignment, size_t size);

static long wanted = -1;
static long calls = 0;

static int is_refused(void)
{
    if (wanted < 0) {
        const char *number = getenv("FAIL_ALLOCATION");
        wanted = number ? atol(number) : 0;
    }
    calls += 1;
    if (calls != wanted)
        return 0;
    const char *path = getenv("FAIL_ALLOCATION_REPORT");
    if (path) {
        int report = open(path, O_WRONLY | O_CREAT | O_CLOEXEC, 0600);
        if (report >= 0)
            close(report);
    }
    errno = ENOMEM;
    return 1;
}

void *malloc(size_t size)
{
    return is_refused() ? NULL : __libc_malloc(size);
}

void *calloc(size_t count, size_t size)
{
    return is_refused() ? NULL : __libc_calloc(count, size);
}

void *realloc(void *block, size_t size)
{
    return is_refused() ? NULL : __libc_realloc(block, size);
}

void *aligned_alloc(size_t alignment, size_t size)
{
    return is_refused() ? NULL : __libc_memalign(alignment, size);
}

int posix_memalign(void **block, size_t alignment, size_t size)
{
    void *made;
    if (is_refused() || !(made = __libc_memalign(alignment, size)))
        return ENOMEM;
    *block = made;
    return 0;
}
