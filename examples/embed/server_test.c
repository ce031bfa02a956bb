/* A peer that asks the server of server.c more often than it can serve: the 65th request is refused by a CLS, and the server goes on. */
#define main example
#include "server.c"
#undef main

enum { SERVED = 64, REQUESTS = 70, ROOM = 32 };

static uint8_t out[NCP_LONGEST_MESSAGE];

/* A control message of a peer that is bytes alone. */
static void come(uint8_t from, const uint8_t *commands, uint8_t len)
{
    uint8_t message[ROOM] = {0, from, 0, 0, 0, 8, 0, len, 0};
    memcpy(message + 9, commands, len);
    hand(&server, message, sizeof message, 8 * (size_t)(9 + len));
    serve(from);
}

static void ask_from(uint8_t from, uint32_t socket)
{
    const uint8_t rts[] = {1, 0, 0, (uint8_t)(socket >> 8), (uint8_t)socket, 0, 0, 0, CONTACT, (uint8_t)(2 + socket / 2 % 70)};
    come(from, rts, sizeof rts);
}

/* The command of the next message to send, which is answered. */
static const uint8_t *next_command(void)
{
    uint8_t answer[LEADER];
    size_t bits = 0;
    want(NCP_DONE, ncp_next_output(&server, out, sizeof out, &bits), "next_output");
    answer_of(RFNM, out, answer);
    hand(&server, answer, sizeof answer, 8 * sizeof answer);
    return out + 9;
}

/* Checks that the next message sent is this command, from the contact socket to a socket. */
static void is_command(uint8_t code, uint32_t socket)
{
    const uint8_t *command = next_command();
    if (command[0] == code && socket_in(command + 1) == CONTACT && socket_in(command + 5) == socket) return;
    printf("%u for socket %lu in place of %u for %lu\n", (unsigned)command[0], (unsigned long)socket_in(command + 5), (unsigned)code, (unsigned long)socket);
    exit(1);
}

int main(void)
{
    enum { STR = 2, CLS = 3, RST = 12, RRP = 13 };
    const uint8_t peers[] = {FIRST, OTHER}, rst[] = {RST}, cls[] = {CLS, 0, 0, 0, 2, 0, 0, 0, CONTACT};
    want(NCP_DONE, ncp_new(&server, SERVER, peers, sizeof peers), "new");
    for (size_t place = 0; place < sizeof peers; place++) {
        come(peers[place], rst, sizeof rst);
        if (*next_command() != RRP) return 1;
    }
    for (uint32_t each = 1; each <= REQUESTS; each++) {
        ask_from(FIRST, 2 * each);
        is_command(each <= SERVED ? STR : CLS, 2 * each);
    }
    /* The other peer is served, and the first again once it has closed one. */
    ask_from(OTHER, 2);
    is_command(STR, 2);
    come(FIRST, cls, sizeof cls);
    is_command(CLS, 2);
    ask_from(FIRST, 2 * (REQUESTS + 1)); /* on the link of the first */
    is_command(STR, 2 * (REQUESTS + 1));
    ncp_free(&server);
    return 0;
}
