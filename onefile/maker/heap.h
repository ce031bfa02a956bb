/* The heap of the proved library, over NCP_MALLOC and NCP_FREE, which may be defined when this file is compiled. A block begins at a
 * multiple of 16, after a note of where it is from. */
#ifndef NCP_MALLOC
#define NCP_MALLOC malloc
#define NCP_FREE free
#endif

struct note {
    u8 *start; /* what was allocated */
#ifdef NCP_IN
    struct heap *heap; /* the lent memory that it is of, or null */
#endif
};

enum { UNIT = 16, BEFORE_BLOCK = 2 * UNIT };

#ifdef NCP_IN
/* Memory that a caller lends. Free pieces are listed in the order of addresses; an allocated piece has its size before it. */
struct piece {
    size_t size;
    struct piece *next;
};

struct heap {
    struct piece *first;
};

/* The lent memory of a host is passed with each call on it. */
#define HEAP_IS struct heap *heap,
#define HEAP_IS_ALONE struct heap *heap
#define HEAP heap,
#define HEAP_ALONE heap

static size_t up_to_unit(size_t bytes)
{
    return (bytes + UNIT - 1) / UNIT * UNIT;
}

static u8 *end_of(struct piece *piece)
{
    return (u8 *)piece + piece->size;
}

/* The first piece that is large enough; what is left of it stays free. */
static u8 *take_piece(struct heap *heap, size_t bytes)
{
    size_t size = up_to_unit(bytes);
    struct piece **at = &heap->first, *piece;
    while (*at != NULL && (*at)->size < size) at = &(*at)->next;
    piece = *at;
    if (piece == NULL) return NULL;
    *at = piece->next;
    if (piece->size > size) {
        struct piece *rest = (struct piece *)((u8 *)piece + size);
        rest->size = piece->size - size;
        rest->next = piece->next;
        *at = rest;
        piece->size = size;
    }
    return (u8 *)piece;
}

/* Joins a free piece with the next one, if that begins where it ends. */
static void join_next(struct piece *piece)
{
    struct piece *next = piece->next;
    if (next == NULL || end_of(piece) != (u8 *)next) return;
    piece->size += next->size;
    piece->next = next->next;
}

static void give_piece(struct heap *heap, u8 *start)
{
    struct piece *piece = (struct piece *)start, *before = NULL, *after = heap->first;
    while (after != NULL && after < piece) before = after, after = after->next;
    piece->next = after;
    if (before == NULL) heap->first = piece;
    else before->next = piece;
    join_next(piece);
    if (before != NULL) join_next(before);
}
#else
#define HEAP_IS
#define HEAP_IS_ALONE void
#define HEAP
#define HEAP_ALONE
#endif

static SIXTEEN const u8 no_block[UNIT] = {0};

static struct note note_of(u64 block)
{
    struct note note;
    memcpy(&note, AT(block) - UNIT, sizeof note);
    return note;
}

/* Returns whether there is a block, and which. */
static void answer_block(u64 answer, u8 *block)
{
    store64(answer, block != NULL);
    store64(answer + 8, block != NULL ? ADDRESS(block) : ADDRESS(no_block));
}

static u8 *block_of(HEAP_IS u64 bytes)
{
    struct note note;
    u8 *block;
    if (bytes > SIZE_MAX / 2 - BEFORE_BLOCK) return NULL;
#ifdef NCP_IN
    note.heap = heap;
    if (heap != NULL) note.start = take_piece(heap, (size_t)bytes + BEFORE_BLOCK);
    else
#endif
    note.start = (u8 *)NCP_MALLOC((size_t)bytes + BEFORE_BLOCK);
    if (note.start == NULL) return NULL;
    block = note.start + BEFORE_BLOCK - ((size_t)note.start & (UNIT - 1));
    memcpy(block - UNIT, &note, sizeof note);
    return block;
}

static void import_rattle_alloc(HEAP_IS u64 answer, u64 bytes, u64 alignment)
{
    answer_block(answer, block_of(HEAP bytes != 0 ? bytes : alignment));
}

static void import_rattle_dealloc(u64 block)
{
    struct note note = note_of(block);
#ifdef NCP_IN
    if (note.heap != NULL) {
        give_piece(note.heap, note.start);
        return;
    }
#endif
    NCP_FREE(note.start);
}

/* Reallocates in the same memory, and copies the bytes. */
static void import_rattle_realloc(u64 answer, u64 block, u64 kept, u64 bytes, u64 alignment)
{
#ifdef NCP_IN
    struct heap *heap = note_of(block).heap;
#endif
    u8 *other = block_of(HEAP bytes != 0 ? bytes : alignment);
    if (other != NULL) {
        memcpy(other, AT(block), (size_t)(kept < bytes ? kept : bytes));
        import_rattle_dealloc(block);
    }
    answer_block(answer, other);
}
