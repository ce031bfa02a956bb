/*
 * Fails one allocation of a program into which it is loaded (LD_PRELOAD): the one with the number REFUSED, from 1 on. At
 * the end it writes the number of allocations to the file COUNTED.
 */
#include <errno.h>
#include <stdio.h>
#include <stdlib.h>

/* what the C library does itself */
extern void *__libc_malloc(size_t size);
extern void *__libc_calloc(size_t count, size_t size);
extern void *__libc_realloc(void *block, size_t size);
extern void *__libc_memalign(size_t align, size_t size);

static unsigned long requests, refused;

__attribute__((constructor)) static void begin(void)
{
    const char *number = getenv("REFUSED");
    refused = number ? strtoul(number, NULL, 10) : 0;
    requests = 0;
}

__attribute__((destructor)) static void end(void)
{
    const char *name = getenv("COUNTED");
    unsigned long told = requests;
    FILE *file = name ? fopen(name, "w") : NULL;
    if (file) {
        fprintf(file, "%lu\n", told);
        fclose(file);
    }
}

static int refuses(void)
{
    requests += 1;
    if (requests != refused)
        return 0;
    errno = ENOMEM;
    return 1;
}

void *malloc(size_t size) { return refuses() ? NULL : __libc_malloc(size); }

void *calloc(size_t count, size_t size) { return refuses() ? NULL : __libc_calloc(count, size); }

void *realloc(void *block, size_t size) { return refuses() ? NULL : __libc_realloc(block, size); }

void *memalign(size_t align, size_t size) { return refuses() ? NULL : __libc_memalign(align, size); }

void *aligned_alloc(size_t align, size_t size) { return memalign(align, size); }

int posix_memalign(void **block, size_t align, size_t size)
{
    if (refuses())
        return ENOMEM;
    *block = __libc_memalign(align, size);
    return *block ? 0 : ENOMEM;
}
