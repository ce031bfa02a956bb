/* More than eight peers: a host of sixteen is two of the library with one number and eight peers each (peers.h). The output is in
 * many_peers.txt. */
#include "peers.h"

enum { ME = 1, FIRST = 2, PEERS = 16 };

static struct many host; /* of zeros */

int main(void)
{
    uint8_t peers[PEERS], message[NCP_LONGEST_MESSAGE], answer[LEADER];
    size_t bits = 0;
    unsigned up = 0, replies = 0;
    struct ncp_host one = NCP_EMPTY;
    for (uint8_t place = 0; place < PEERS; place++) peers[place] = (uint8_t)(FIRST + place);
    printf("one of nine peers: %s\n", ncp_word(ncp_new(&one, ME, peers, EACH + 1)));
    want(NCP_DONE, make_many(&host, ME, peers, PEERS), "make_many");

    /* Each peer resets, and is answered. */
    for (int place = 0; place < PEERS; place++) {
        const uint8_t rst[] = {REGULAR, peers[place], 0, 0, 0, 8, 0, 1, 0, 12};
        hand(part_of(&host, peers[place]), rst, sizeof rst, 8 * sizeof rst);
    }
    while (next_output(&host, message, &bits)) {
        replies++;
        answer_of(RFNM, message, answer);
        hand(part_of(&host, message[1]), answer, sizeof answer, 8 * sizeof answer);
    }
    for (int place = 0; place < PEERS; place++) up += ncp_is_up(part_of(&host, peers[place]), peers[place]);
    printf("%u replies went out, and the host is up with %u\n", replies, up);
    free_many(&host);
    return 0;
}
