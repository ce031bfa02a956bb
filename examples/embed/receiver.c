/* Host 2, which receives a text from host 1 over a datagram socket: `receiver HERE THERE`, the paths of the
 * two sockets. The output is in receiver.txt. */
#define _POSIX_C_SOURCE 200809L
#include "link.h"

enum { ME = 2, PEER = 1, EVEN = 2, ODD = 3, FIRST_LINK = 2 };

static bool is_open(struct end *end)
{
    struct ncp_connection it;
    want(NCP_DONE, ncp_state(&end->host, PEER, EVEN, ODD, &it), "state");
    return it.opened;
}

static bool has_text(struct end *end)
{
    struct ncp_connection it;
    want(NCP_DONE, ncp_state(&end->host, PEER, EVEN, ODD, &it), "state");
    return it.stored > 0;
}

static bool is_closed(struct end *end)
{
    struct ncp_connection it;
    return ncp_state(&end->host, PEER, EVEN, ODD, &it) == NCP_NO_ENTRY;
}

int main(int argc, char **argv)
{
    uint8_t text[NCP_LONGEST_MESSAGE];
    size_t bits = 0;
    uint32_t local, remote;
    struct end end;
    if (argc != 3) {
        fputs("usage: receiver HERE THERE\n", stderr);
        return 2;
    }
    begin(&end, ME, PEER, argv[1], argv[2]);

    until(&end, end_is_up);
    puts("up");
    want(NCP_DONE, ncp_ask_receive(&end.host, PEER, EVEN, ODD, 1024), "ask_receive");
    until(&end, is_open);
    puts("open");
    want(NCP_DONE, ncp_allocate(&end.host, PEER, EVEN, ODD, 2, 64), "allocate");
    until(&end, has_text);
    want(NCP_DONE, ncp_pair_on(&end.host, PEER, false, FIRST_LINK, &local, &remote), "pair_on");
    printf("link %d leads to socket %d, from %d\n", FIRST_LINK, (int)local, (int)remote);
    want(NCP_DONE, ncp_take(&end.host, PEER, EVEN, ODD, 100, text, sizeof text, &bits), "take");
    printf("took %d bits: ", (int)bits);
    say_text(text, bits / 8);
    until(&end, is_closed);
    puts("closed");
    finish(&end, argv[1]);
    return 0;
}
