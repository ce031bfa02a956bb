/* A heap for a page, and the toolchain's three functions over it: each block has 2^k bytes, and for each size there is a
   list of free blocks. Free blocks are joined and split again once memory can no longer grow, and while few blocks are
   allocated: so each script begins with a tidy heap. */
typedef unsigned long size_t;

struct tried {
    size_t ok;
    void *block;
};

/* The user's part of a block begins at its link to the next free one. */
struct block {
    size_t class, is_free;
    struct block *next;
};

enum { HEAD = 16, LEAST = 5, PAGE = 16, AT_ONCE = 64, CLASSES = 32, FEW = 16 };

extern unsigned char __heap_base;
static size_t bottom, top, limit, lent_blocks;
static struct block *lists[CLASSES];
static unsigned char none;

static size_t size_of(unsigned class) {
    return 1ul << class;
}

/* The index of the least power of two that holds this many bytes and the head; CLASSES for too many. */
static unsigned class_of(size_t bytes) {
    if (bytes > size_of(CLASSES) - HEAD)
        return CLASSES;
    return bytes <= HEAD ? LEAST : 64 - __builtin_clzl(bytes + HEAD - 1);
}

static void release(struct block *block, unsigned class) {
    *block = (struct block){class, 1, lists[class]};
    lists[class] = block;
}

static struct block *reuse(unsigned class) {
    struct block *block = lists[class];
    lists[class] = block->next;
    block->is_free = 0;
    return block;
}

/* Whether memory grew by this many pages. On failure the result is -1 cut to 32 bits: wasm-opt makes addresses of 32
   bits, and zero-extends them. */
static int grows(size_t pages) {
    if ((unsigned)__builtin_wasm_memory_grow(0, pages) == -1u)
        return 0;
    limit += pages << PAGE;
    return 1;
}

/* A fresh block, or null. */
static struct block *fresh(unsigned class) {
    if (!top) {
        bottom = top = ((size_t)&__heap_base + HEAD - 1) & ~(size_t)(HEAD - 1);
        limit = __builtin_wasm_memory_size(0) << PAGE;
    }
    size_t end = top + size_of(class);
    if (end > limit) {
        size_t pages = (end - limit + size_of(PAGE) - 1) >> PAGE;
        if ((pages >= AT_ONCE || !grows(AT_ONCE)) && !grows(pages))
            return 0;
    }
    struct block *block = (struct block *)top;
    *block = (struct block){class, 0, 0};
    top = end;
    return block;
}

static size_t after(size_t at) {
    return at + size_of(((struct block *)at)->class);
}

/* Makes blocks as large as may be of what is free between two places. */
static void divide(size_t at, size_t end) {
    while (at < end) {
        release((struct block *)at, 63 - __builtin_clzl(end - at));
        at = after(at);
    }
}

/* Joins what is free, from the bottom up, and divides it again. What is free at the top is fresh. */
static void join(void) {
    __builtin_memset(lists, 0, sizeof lists);
    size_t at = bottom;
    while (at < top) {
        size_t end = at;
        while (end < top && ((struct block *)end)->is_free)
            end = after(end);
        if (end == top) {
            top = at;
            return;
        }
        divide(at, end);
        at = after(end);
    }
}

/* A block cut from the least that is free and large enough, or null. */
static struct block *cut(unsigned class) {
    unsigned larger = class;
    while (larger < CLASSES && !lists[larger])
        larger++;
    if (larger == CLASSES)
        return 0;
    struct block *block = reuse(larger);
    while (larger > class) {
        larger--;
        release((struct block *)((size_t)block + size_of(larger)), larger);
    }
    block->class = class;
    return block;
}

static struct block *last_resort(unsigned class) {
    join();
    struct block *block = cut(class);
    return block ? block : fresh(class);
}

/* A block of this many bytes, or null. */
void *web_alloc(size_t bytes) {
    unsigned class = class_of(bytes);
    if (class >= CLASSES)
        return 0;
    struct block *block = lists[class] ? reuse(class) : fresh(class);
    if (!block)
        block = last_resort(class);
    if (!block)
        return 0;
    lent_blocks++;
    return &block->next;
}

static struct block *block_of(void *lent) {
    return (struct block *)((char *)lent - HEAD);
}

void web_free(void *lent) {
    release(block_of(lent), block_of(lent)->class);
    if (--lent_blocks <= FEW)
        join();
}

struct tried rattle_alloc(size_t bytes, size_t align) {
    void *lent = web_alloc(bytes ? bytes : align);
    return (struct tried){lent != 0, lent ? lent : &none};
}

/* A block that shrinks to another class frees the rest. */
struct tried rattle_realloc(void *lent, size_t kept, size_t bytes, size_t align) {
    (void)align;
    if (class_of(bytes) == block_of(lent)->class)
        return (struct tried){1, lent};
    void *other = web_alloc(bytes);
    if (!other)
        return (struct tried){0, &none};
    __builtin_memcpy(other, lent, kept);
    web_free(lent);
    return (struct tried){1, other};
}

void rattle_dealloc(void *lent) {
    web_free(lent);
}
