/* A server: it waits on its contact socket, and sends a number of 32 bits to anyone who asks there, as the initial connection
 * protocol begins. Requests are among its connections. One that it cannot serve, such as the 65th of a peer while 64 are open, it
 * refuses with a CLS. The output is in server.txt. */
#include "imp.h"

enum { SERVER = 9, FIRST = 1, OTHER = 3, CONTACT = 1 /* an odd socket, since it sends */, SIZE = 32 };

static struct ncp_host server, first, other;

static uint32_t socket_in(const uint8_t *bytes)
{
    return (uint32_t)bytes[0] << 24 | (uint32_t)bytes[1] << 16 | (uint32_t)bytes[2] << 8 | bytes[3];
}

/* Sends the number to the requester at a socket, or returns why not. */
static uint32_t answer_to(uint8_t peer, uint32_t asking)
{
    const uint8_t number[4] = {0, 0, peer, 0};
    uint32_t code = ncp_ask_send(&server, peer, CONTACT, asking, SIZE, SIZE);
    return code != NCP_DONE ? code : ncp_give(&server, peer, CONTACT, asking, number, sizeof number, SIZE);
}

/* Answers each request of a peer for the contact socket. One that can be neither served nor refused now is retried at the next input. */
static void serve(uint8_t peer)
{
    uint32_t socket, asking, code;
    struct ncp_connection it;
    for (uint32_t place = 0; ncp_connection_at(&server, peer, place, &socket, &asking, &it) == NCP_DONE; place++) {
        if (socket != CONTACT || it.asked || it.left || !it.heard) continue;
        printf("host %d asks from socket %lu, on link %d\n", peer, (unsigned long)asking, it.link);
        code = answer_to(peer, asking);
        if (code == NCP_DONE) continue;
        printf("refused: %s\n", ncp_word(code));
        ncp_close(&server, peer, CONTACT, asking);
    }
}

static struct ncp_host *host_of(uint8_t number)
{
    return number == SERVER ? &server : number == FIRST ? &first : &other;
}

static bool carry(uint8_t from)
{
    uint8_t message[NCP_LONGEST_MESSAGE], answer[LEADER];
    size_t bits = 0;
    struct ncp_arrived arrived;
    uint8_t to;
    if (ncp_next_output(host_of(from), message, sizeof message, &bits) != NCP_DONE) return false;
    answer_of(RFNM, message, answer);
    to = message[1];
    message[1] = from;
    arrived = hand(host_of(to), message, sizeof message, bits);
    hand(host_of(from), answer, sizeof answer, 8 * sizeof answer);
    if (to == SERVER && arrived.what == NCP_ARRIVED_CONTROL) serve(arrived.peer);
    return true;
}

static void settle(void)
{
    for (bool moved = true; moved;) {
        moved = carry(FIRST);
        moved = carry(OTHER) || moved;
        moved = carry(SERVER) || moved;
    }
}

/* Asks the server from a socket, and prints what it sends. */
static void ask(struct ncp_host *host, const char *name, uint32_t socket)
{
    uint8_t text[NCP_LONGEST_MESSAGE];
    size_t bits = 0;
    want(NCP_DONE, ncp_reset(host, SERVER), "reset");
    settle();
    want(NCP_DONE, ncp_ask_receive(host, SERVER, socket, CONTACT, SIZE), "ask_receive");
    settle();
    want(NCP_DONE, ncp_allocate(host, SERVER, socket, CONTACT, 1, SIZE), "allocate");
    settle();
    want(NCP_DONE, ncp_take(host, SERVER, socket, CONTACT, 1, text, sizeof text, &bits), "take");
    printf("%s has %lu, of %d bits\n", name, (unsigned long)socket_in(text), (int)bits);
    want(NCP_DONE, ncp_close(host, SERVER, socket, CONTACT), "close");
    settle();
}

int main(void)
{
    const uint8_t clients[] = {FIRST, OTHER}, servers[] = {SERVER};
    struct ncp_connection it;
    want(NCP_DONE, ncp_new(&server, SERVER, clients, 2), "new");
    want(NCP_DONE, ncp_new(&first, FIRST, servers, 1), "new");
    want(NCP_DONE, ncp_new(&other, OTHER, servers, 1), "new");
    ask(&first, "host 1", 2);
    ask(&other, "host 3", 0x1234560);
    printf("then: %s, %s\n", ncp_word(ncp_state(&server, FIRST, CONTACT, 2, &it)), ncp_word(ncp_state(&server, OTHER, CONTACT, 0x1234560, &it)));
    ncp_free(&server), ncp_free(&first), ncp_free(&other);
    return 0;
}
