
#ifdef NCP_IN
/* What the library allocates for a host in all, in bytes and blocks: once, and for each peer; for each connection a block for its room,
 * with one byte more. onefile/lent.c looks whether that is enough. */
enum { MOST_PEERS = 8, OF_HOST = 64, BLOCKS_OF_HOST = 2, OF_PEER = 97624, BLOCKS_OF_PEER = 4 };
/* The overhead of a block, and of lent memory. */
enum { OF_BLOCK = BEFORE_BLOCK + UNIT - 1, OF_MEMORY = 2 * UNIT };

size_t ncp_size(size_t count, size_t connections, uint32_t room)
{
    if (count == 0 || count > MOST_PEERS) return 0;
    return OF_MEMORY + OF_HOST + BLOCKS_OF_HOST * OF_BLOCK + count * (OF_PEER + BLOCKS_OF_PEER * OF_BLOCK) + connections * ((size_t)room / 8 + 2 + OF_BLOCK);
}

uint32_t ncp_new_in(struct ncp_host *host, uint8_t me, const uint8_t *peers, size_t count, void *memory, size_t size)
{
    struct heap none = {NULL}, *heap = &none;
    size_t before;
    if (host == NULL) return NCP_NO_HOST;
    if (peers == NULL || memory == NULL) return NCP_NO_POINTER;
    if (host->at != NULL) return NCP_BUSY;
    before = up_to_unit((size_t)memory) - (size_t)memory;
    if (size >= before + OF_MEMORY) {
        heap = (struct heap *)((u8 *)memory + before);
        heap->first = (struct piece *)((u8 *)heap + UNIT);
        heap->first->size = (size - before) / UNIT * UNIT - UNIT;
        heap->first->next = NULL;
    }
    return new_with(heap, host, me, peers, count);
}
#endif
