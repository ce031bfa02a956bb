/* The heap of the proved program, over malloc and free. A block begins at a multiple of 16, after the address that malloc returned. */
enum { UNIT = 16, BEFORE_BLOCK = 2 * UNIT };

static SIXTEEN const u8 no_block[UNIT] = {0};

static u8 *start_of(u64 block)
{
    u8 *start;
    memcpy(&start, AT(block) - UNIT, sizeof start);
    return start;
}

static u8 *block_of(u64 bytes)
{
    u8 *start, *block;
    if (bytes > SIZE_MAX / 2 - BEFORE_BLOCK) return NULL;
    start = (u8 *)malloc((size_t)bytes + BEFORE_BLOCK);
    if (start == NULL) return NULL;
    block = start + BEFORE_BLOCK - ((size_t)start & (UNIT - 1));
    memcpy(block - UNIT, &start, sizeof start);
    return block;
}

/* Returns whether there is a block, and which. */
static void answer_block(u64 answer, u8 *block)
{
    store64(answer, block != NULL);
    store64(answer + 8, block != NULL ? ADDRESS(block) : ADDRESS(no_block));
}

static void import_rattle_alloc(u64 answer, u64 bytes, u64 alignment)
{
    answer_block(answer, block_of(bytes != 0 ? bytes : alignment));
}

static void import_rattle_dealloc(u64 block)
{
    free(start_of(block));
}

/* Another block, with the bytes that are kept. */
static void import_rattle_realloc(u64 answer, u64 block, u64 kept, u64 bytes, u64 alignment)
{
    u8 *other = block_of(bytes != 0 ? bytes : alignment);
    if (other != NULL) {
        memcpy(other, AT(block), (size_t)(kept < bytes ? kept : bytes));
        import_rattle_dealloc(block);
    }
    answer_block(answer, other);
}
