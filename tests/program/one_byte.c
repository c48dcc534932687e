/* Preloaded under a program, it gives standard input one byte per read. */
#define _GNU_SOURCE
#include <stddef.h>
#include <sys/syscall.h>
#include <sys/types.h>
#include <unistd.h>

ssize_t read(int descriptor, void *bytes, size_t count)
{
    if (descriptor == STDIN_FILENO && count > 1)
        count = 1;
    return syscall(SYS_read, descriptor, bytes, count);
}
