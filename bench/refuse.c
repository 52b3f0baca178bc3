/* Lets one allocation, read or write of a program fail, and counts them. It is loaded before the C library (LD_PRELOAD).
 *   REFUSE_ALLOC=N   the Nth call of malloc, calloc, realloc, posix_memalign, aligned_alloc or memalign answers that there is no memory
 *   REFUSE_READ=N    the Nth read of standard input fails with EIO
 *   REFUSE_WRITE=N   the Nth write to standard output fails with EIO
 *   REFUSE_COUNTS=F  at the end the file F has the three counts, with spaces between them
 * Numbers begin at 1; 0, or none, lets no call fail. */
#define _GNU_SOURCE
#include <errno.h>
#include <fcntl.h>
#include <stdatomic.h>
#include <stdio.h>
#include <stdlib.h>
#include <string.h>
#include <sys/syscall.h>
#include <unistd.h>

extern void *__libc_malloc(size_t);
extern void *__libc_calloc(size_t, size_t);
extern void *__libc_realloc(void *, size_t);
extern void *__libc_memalign(size_t, size_t);

static atomic_long allocations, reads, writes;
static long no_allocation, no_read, no_write;
static int is_ready;

static long number(const char *name)
{
    const char *text = getenv(name);
    return text ? atol(text) : 0;
}

__attribute__((constructor)) static void begin(void)
{
    no_allocation = number("REFUSE_ALLOC");
    no_read = number("REFUSE_READ");
    no_write = number("REFUSE_WRITE");
    is_ready = 1;
}

static void write_counts(void)
{
    const char *name = getenv("REFUSE_COUNTS");
    char text[80];
    int file, length;
    if (!name)
        return;
    is_ready = 0;
    length = snprintf(text, sizeof text, "%ld %ld %ld\n", (long)allocations, (long)reads, (long)writes);
    file = open(name, O_WRONLY | O_CREAT | O_TRUNC, 0600);
    if (file >= 0) {
        syscall(SYS_write, file, text, (size_t)length);
        close(file);
    }
}

/* The program ends by _exit, which runs no destructors. */
void _exit(int status)
{
    write_counts();
    syscall(SYS_exit_group, status);
    __builtin_unreachable();
}

static int is_refused(void)
{
    return is_ready && atomic_fetch_add(&allocations, 1) + 1 == no_allocation;
}

void *malloc(size_t size)
{
    if (is_refused()) {
        errno = ENOMEM;
        return NULL;
    }
    return __libc_malloc(size);
}

void *calloc(size_t count, size_t size)
{
    if (is_refused()) {
        errno = ENOMEM;
        return NULL;
    }
    return __libc_calloc(count, size);
}

void *realloc(void *old, size_t size)
{
    if (is_refused()) {
        errno = ENOMEM;
        return NULL;
    }
    return __libc_realloc(old, size);
}

void *memalign(size_t alignment, size_t size)
{
    if (is_refused()) {
        errno = ENOMEM;
        return NULL;
    }
    return __libc_memalign(alignment, size);
}

void *aligned_alloc(size_t alignment, size_t size)
{
    return memalign(alignment, size);
}

int posix_memalign(void **place, size_t alignment, size_t size)
{
    void *made = memalign(alignment, size);
    if (!made)
        return ENOMEM;
    *place = made;
    return 0;
}

ssize_t read(int file, void *to, size_t size)
{
    if (file == 0 && atomic_fetch_add(&reads, 1) + 1 == no_read) {
        errno = EIO;
        return -1;
    }
    return syscall(SYS_read, file, to, size);
}

ssize_t write(int file, const void *from, size_t size)
{
    if (file == 1 && atomic_fetch_add(&writes, 1) + 1 == no_write) {
        errno = EIO;
        return -1;
    }
    return syscall(SYS_write, file, from, size);
}
