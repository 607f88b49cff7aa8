/* Stands before the C library and refuses what REFUSE names: `growth N` the N-th growth of memory, `read N` the N-th read, `write N` the
 * N-th write to standard output; with a `+` behind it all later ones too. A byte goes to file descriptor 9 for each refusal, so that the
 * caller sees whether the run met one. */
#define _GNU_SOURCE
#include <errno.h>
#include <stdlib.h>
#include <sys/syscall.h>
#include <unistd.h>

extern void *__libc_malloc(size_t size);
extern void *__libc_calloc(size_t count, size_t size);
extern void *__libc_realloc(void *old, size_t size);
extern void *__libc_memalign(size_t alignment, size_t size);

static char kind;
static unsigned long asked, refused;
static int all_later;

/* Runs when all is loaded, just before the program: what the loader allocates is not counted. */
__attribute__((constructor)) static void begin(void)
{
    char *words = getenv("REFUSE"), *end;
    if (!words)
        return;
    for (end = words; *end && *end != ' '; end++)
        ;
    refused = strtoul(end, &end, 10);
    all_later = *end == '+';
    kind = *words;
}

static int is_refused(char what, int error)
{
    if (what != kind || ++asked < refused || (asked > refused && !all_later))
        return 0;
    syscall(SYS_write, 9, ".", 1);
    errno = error;
    return 1;
}

#define GROWTH(call) (is_refused('g', ENOMEM) ? NULL : (call))

void *malloc(size_t size) { return GROWTH(__libc_malloc(size)); }
void *calloc(size_t count, size_t size) { return GROWTH(__libc_calloc(count, size)); }
void *realloc(void *old, size_t size) { return GROWTH(__libc_realloc(old, size)); }
void *aligned_alloc(size_t alignment, size_t size) { return GROWTH(__libc_memalign(alignment, size)); }

int posix_memalign(void **block, size_t alignment, size_t size)
{
    *block = aligned_alloc(alignment, size);
    return *block ? 0 : ENOMEM;
}

ssize_t read(int file, void *buffer, size_t count)
{
    return is_refused('r', EIO) ? -1 : syscall(SYS_read, file, buffer, count);
}

ssize_t write(int file, const void *bytes, size_t count)
{
    return file == 1 && is_refused('w', ENOSPC) ? -1 : syscall(SYS_write, file, bytes, count);
}

ssize_t __write(int file, const void *bytes, size_t count) { return write(file, bytes, count); }
