/* Host 1, which sends a text to host 2 over a datagram socket: `sender HERE THERE`, the paths of the two
 * sockets. Its first text is lost, and sent again. The output is in sender.txt. */
#define _POSIX_C_SOURCE 200809L
#include "link.h"

enum { ME = 1, PEER = 2, ODD = 3, EVEN = 2 };

static bool was_asked(struct end *end)
{
    struct ncp_connection it;
    return ncp_state(&end->host, PEER, ODD, EVEN, &it) == NCP_DONE && it.heard;
}

static bool may_send(struct end *end)
{
    struct ncp_connection it;
    want(NCP_DONE, ncp_state(&end->host, PEER, ODD, EVEN, &it), "state");
    return it.opened && it.messages > 0;
}

static bool has_sent(struct end *end)
{
    struct ncp_connection it;
    want(NCP_DONE, ncp_state(&end->host, PEER, ODD, EVEN, &it), "state");
    return it.stored == 0 && !it.busy;
}

static bool is_closed(struct end *end)
{
    struct ncp_connection it;
    return ncp_state(&end->host, PEER, ODD, EVEN, &it) == NCP_NO_ENTRY;
}

int main(int argc, char **argv)
{
    const uint8_t hello[] = {'h', 'e', 'l', 'l', 'o'};
    struct end end;
    if (argc != 3) {
        fputs("usage: sender HERE THERE\n", stderr);
        return 2;
    }
    begin(&end, ME, PEER, argv[1], argv[2]);

    want(NCP_DONE, ncp_reset(&end.host, PEER), "reset");
    until(&end, end_is_up);
    puts("up");
    until(&end, was_asked);
    want(NCP_DONE, ncp_ask_send(&end.host, PEER, ODD, EVEN, 8, 1024), "ask_send");
    until(&end, may_send);
    puts("open");
    end.loses = true;
    want(NCP_DONE, ncp_give(&end.host, PEER, ODD, EVEN, hello, sizeof hello, 40), "give");
    until(&end, has_sent);
    puts("sent");
    want(NCP_DONE, ncp_close(&end.host, PEER, ODD, EVEN), "close");
    until(&end, is_closed);
    puts("closed");
    finish(&end, argv[1]);
    return 0;
}
