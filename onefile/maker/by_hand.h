
/* A host that is made so is in the process's memory. */
static uint32_t ncp_embed_new(struct ncp_host *handle, uint8_t me, const uint8_t *peers, size_t peers_len)
{
    return new_with(NO_HEAP handle, me, peers, peers_len);
}

/* The names of ncp_name are those of ncp_word: the library's table of them would have addresses inside. */
static uint32_t ncp_embed_name(uint32_t code, uint8_t *out, size_t len, size_t *bytes)
{
    const char *word = ncp_word(code);
    size_t count = strlen(word);
    if (count == 0) return NCP_NOTHING;
    if (len < count) return NCP_SHORT_BUFFER;
    memcpy(out, word, count);
    *bytes = count;
    return NCP_DONE;
}
