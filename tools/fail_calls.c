/* Loaded before the C library (LD_PRELOAD), this lets calls of a program fail.
 *
 *   FAIL_ALLOCATION=N   the Nth malloc, calloc or realloc finds no memory, counted from 1
 *   FAIL_IO=N           the Nth read of standard input or write to standard output fails with EIO
 *   MOST_BYTES=N        each read and each write moves at most N bytes
 *   COUNTS=FILE         at the end FILE has two numbers: the allocations, and the reads and writes
 */
#define _GNU_SOURCE
#include <errno.h>
#include <fcntl.h>
#include <stdio.h>
#include <stdlib.h>
#include <sys/syscall.h>
#include <unistd.h>

extern void *__libc_malloc(size_t);
extern void *__libc_calloc(size_t, size_t);
extern void *__libc_realloc(void *, size_t);

static unsigned long allocations, calls;
static unsigned long fail_allocation, fail_io, most_bytes;

static unsigned long number_of(const char *name)
{
    const char *text = getenv(name);
    return text ? strtoul(text, 0, 10) : 0;
}

__attribute__((constructor)) static void begin(void)
{
    fail_allocation = number_of("FAIL_ALLOCATION");
    fail_io = number_of("FAIL_IO");
    most_bytes = number_of("MOST_BYTES");
    allocations = 0;
}

__attribute__((destructor)) static void end(void)
{
    const char *file = getenv("COUNTS");
    char text[64];
    int length, out;
    if (!file)
        return;
    length = snprintf(text, sizeof text, "%lu %lu\n", allocations, calls);
    out = open(file, O_WRONLY | O_CREAT | O_TRUNC, 0600);
    syscall(SYS_write, out, text, length);
    close(out);
}

static int is_refused(void)
{
    allocations++;
    if (allocations != fail_allocation)
        return 0;
    errno = ENOMEM;
    return 1;
}

void *malloc(size_t size)
{
    return is_refused() ? 0 : __libc_malloc(size);
}

void *calloc(size_t count, size_t size)
{
    return is_refused() ? 0 : __libc_calloc(count, size);
}

void *realloc(void *old, size_t size)
{
    return is_refused() ? 0 : __libc_realloc(old, size);
}

/* The bytes that a call may move; -1 where it fails. Other files than the given one are left alone. */
static ssize_t allowed(int file, int counted, size_t size)
{
    if (file != counted)
        return size;
    calls++;
    if (calls == fail_io) {
        errno = EIO;
        return -1;
    }
    return most_bytes && size > most_bytes ? most_bytes : size;
}

ssize_t read(int file, void *into, size_t size)
{
    ssize_t most = allowed(file, 0, size);
    return most < 0 ? most : syscall(SYS_read, file, into, most);
}

ssize_t write(int file, const void *from, size_t size)
{
    ssize_t most = allowed(file, 1, size);
    return most < 0 ? most : syscall(SYS_write, file, from, most);
}

ssize_t __write(int file, const void *from, size_t size)
{
    return write(file, from, size);
}
