/* A host with any number of peers: several hosts of the library with the same number, each with eight peers at most. A received message is
 * passed to the part that has its peer, and messages to send are from all parts in turn. */
#ifndef PEERS_H
#define PEERS_H

#include "imp.h"

enum { NUMBERS = 256 /* of hosts */, EACH = 8 /* peers of a part, at most */, MOST_PARTS = NUMBERS / EACH };

struct many {
    struct ncp_host parts[MOST_PARTS]; /* of zeros, so each is NCP_EMPTY */
    size_t count;                      /* of parts */
    size_t turn;                       /* the part of the last message that was sent */
    bool is_peer[NUMBERS];
    uint8_t part[NUMBERS]; /* of each peer */
};

/* The part that has a peer. What is from no peer goes to the first, which counts it. */
static inline struct ncp_host *part_of(struct many *many, uint8_t peer)
{
    return &many->parts[many->part[peer]];
}

/* Makes a host of the number `me`: NCP_NEW_BAD_PEERS if there is no peer, one is named twice, or one is `me`. */
static inline uint32_t make_many(struct many *many, uint8_t me, const uint8_t *peers, size_t count)
{
    uint32_t code = count == 0 ? NCP_NEW_BAD_PEERS : NCP_DONE;
    for (size_t place = 0; place < count; place++) {
        if (many->is_peer[peers[place]]) return NCP_NEW_BAD_PEERS;
        many->is_peer[peers[place]] = true;
        many->part[peers[place]] = (uint8_t)(place / EACH);
    }
    for (size_t place = 0; place < count && code == NCP_DONE; place += EACH) {
        const size_t left = count - place;
        code = ncp_new(&many->parts[many->count++], me, peers + place, left < EACH ? left : (size_t)EACH);
    }
    return code;
}

static inline void free_many(struct many *many)
{
    while (many->count > 0) ncp_free(&many->parts[--many->count]);
}

/* The next message of any part, of the one after the last one first. */
static inline bool next_output(struct many *many, uint8_t out[NCP_LONGEST_MESSAGE], size_t *bits)
{
    for (size_t tries = 0; tries < many->count; tries++) {
        many->turn = (many->turn + 1) % many->count;
        if (ncp_next_output(&many->parts[many->turn], out, NCP_LONGEST_MESSAGE, bits) == NCP_DONE) return true;
    }
    return false;
}

#endif
