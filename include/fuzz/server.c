/* Random messages of two peers for the server of the examples: `server SEED INPUTS`. It answers, refuses or waits, and goes on. */
#include "dice.h"
#define main example
#include "../../examples/embed/server.c"
#undef main

enum { ROOM = 96 };

/* A control message of a peer: commands that name the contact socket mostly, and no bit beyond them. */
static size_t make_message(uint8_t *message, uint8_t from)
{
    static const uint8_t lens[] = {1, 10, 10, 9, 8, 4, 8, 2, 2, 2, 2, 12, 1, 1};
    size_t len = 9;
    memset(message, 0, ROOM);
    message[1] = from, message[5] = 8;
    for (uint64_t commands = 1 + pick(4); commands > 0; commands--) {
        uint8_t code = (uint8_t)(one_in(2) ? 1 : pick(14)), *at = message + len;
        if (code == 12 && !one_in(64)) code = 0;
        *at = code, len += lens[code];
        if (code >= 1 && code <= 3) at[3] = (uint8_t)pick(2), at[4] = (uint8_t)(2 * pick(100)), at[8] = one_in(8) ? (uint8_t)pick(256) : CONTACT, at[9 * (code < 3)] = code < 3 ? (uint8_t)(2 + pick(70)) : code;
        if (code >= 4 && code <= 11) at[1] = (uint8_t)(2 + pick(70));
        if (code == 4) at[3] = 1, at[7] = 32;
    }
    message[7] = (uint8_t)(len - 9);
    return one_in(8) ? spoil(message, len, ROOM) : len;
}

static void come(const uint8_t *message, size_t len)
{
    const struct ncp_arrived arrived = hand(&server, message, len, 8 * len);
    if (arrived.what == NCP_ARRIVED_CONTROL) serve(arrived.peer);
}

int main(int argc, char **argv)
{
    const unsigned long inputs = begin_dice(argc, argv);
    const uint8_t peers[] = {FIRST, OTHER};
    uint8_t message[ROOM], out[NCP_LONGEST_MESSAGE], answer[LEADER];
    size_t bits = 0;
    if (freopen("/dev/null", "w", stdout) == NULL) return 1;
    HOLDS(ncp_new(&server, SERVER, peers, sizeof peers) == NCP_DONE);
    for (input = 1; input <= inputs; input++) {
        come(message, make_message(message, peers[pick(2)]));
        while (!one_in(4) && ncp_next_output(&server, out, sizeof out, &bits) == NCP_DONE) {
            for (size_t place = 0; place < (bits + 7) / 8; place++) mix(out[place]);
            answer_of(one_in(16) ? INCOMPLETE : RFNM, out, answer);
            come(answer, sizeof answer);
        }
        for (size_t place = 0; place < sizeof peers; place++) ncp_wake(&server, peers[place]); /* after Destination Dead */
    }
    ncp_free(&server);
    fprintf(stderr, "%016llx\n", (unsigned long long)digest);
    return 0;
}
