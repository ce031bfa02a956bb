/* SPDX-License-Identifier: MIT */
/* The toolchain's three functions over malloc, realloc and free, for a target for which the toolchain has none. Each
 * block is aligned as malloc aligns it, which is enough for all that the library asks for (docs/EMBEDDING.md); a block of
 * no bytes is asked for as one of its alignment. Where there is no memory, a byte that nothing reads is pointed to. */
#include <stddef.h>
#include <stdlib.h>

struct tried {
    size_t is_there;
    void *block;
};

struct tried rattle_alloc(size_t bytes, size_t alignment);
struct tried rattle_realloc(void *block, size_t kept, size_t bytes, size_t alignment);
void rattle_dealloc(void *block);

static char nothing;

static struct tried tried(void *block)
{
    struct tried answer = {block != NULL, block != NULL ? block : &nothing};
    return answer;
}

struct tried rattle_alloc(size_t bytes, size_t alignment)
{
    return tried(malloc(bytes != 0 ? bytes : alignment));
}

struct tried rattle_realloc(void *block, size_t kept, size_t bytes, size_t alignment)
{
    (void)kept;
    return tried(realloc(block, bytes != 0 ? bytes : alignment));
}

void rattle_dealloc(void *block)
{
    free(block);
}
