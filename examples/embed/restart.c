/* The IMP is restarted, three times: while an RST is unanswered, while nothing is, and while a request is. ncp_unacknowledged says which
 * it is, and for a request there is an echo, and after its answer a reset (docs/EMBEDDING.md). The output is in restart.txt. */
#include "imp.h"

enum { A = 1, B = 2, ODD = 3, EVEN = 2, BYTE = 65 };

static const uint8_t rfnm[] = {RFNM, B, 0, 0}, restarted[] = {NCP_TYPE_INTERFACE_RESET, 0, 0, 0};
static const uint8_t rrp[] = {REGULAR, B, 0, 0, 0, 8, 0, 1, 0, 13};
static const uint8_t erp[] = {REGULAR, B, 0, 0, 0, 8, 0, 2, 0, 10, BYTE};

static void say_what(const char *when, struct ncp_host *host)
{
    static const char *const words[] = {"nothing", "a message", "a reset"};
    uint32_t what = 0;
    want(NCP_DONE, ncp_unacknowledged(host, B, &what), "unacknowledged");
    printf("%s: %s\n", when, words[what]);
}

/* Sends what is ready. */
static void send_ready(struct ncp_host *host)
{
    uint8_t out[NCP_LONGEST_MESSAGE];
    size_t bits = 0;
    while (ncp_next_output(host, out, sizeof out, &bits) == NCP_DONE) say("sent", out, bits);
}

/* The IMP was restarted: it answers none of the messages that it had, so they are sent again. */
static void restart(struct ncp_host *host)
{
    struct ncp_arrived arrived = hand(host, restarted, sizeof restarted, 8 * sizeof restarted);
    want(NCP_TYPE_INTERFACE_RESET, arrived.kind, "the type");
    say_what("a restart", host);
    want(NCP_DONE, ncp_restart(host, B), "restart");
    send_ready(host);
}

/* The RFNM for the message on link 0. */
static void answer(struct ncp_host *host)
{
    hand(host, rfnm, sizeof rfnm, 8 * sizeof rfnm);
    say_what("an RFNM", host);
}

int main(void)
{
    struct ncp_host host = NCP_EMPTY;
    const uint8_t peer[] = {B};
    struct ncp_connection it;
    uint8_t echoed = 0;
    want(NCP_DONE, ncp_new(&host, A, peer, 1), "new");
    say_what("new", &host);
    want(NCP_DONE, ncp_reset(&host, B), "reset");
    send_ready(&host);
    restart(&host);
    answer(&host);
    hand(&host, rrp, sizeof rrp, 8 * sizeof rrp);
    restart(&host);

    want(NCP_DONE, ncp_ask_send(&host, B, ODD, EVEN, 8, 1024), "ask_send");
    send_ready(&host);
    restart(&host);
    answer(&host);
    want(NCP_DONE, ncp_echo(&host, B, BYTE), "echo");
    send_ready(&host);
    answer(&host);
    hand(&host, erp, sizeof erp, 8 * sizeof erp);
    want(NCP_DONE, ncp_echoed(&host, B, &echoed), "echoed");
    printf("echoed: %u\n", echoed);
    want(NCP_DONE, ncp_reset(&host, B), "reset");
    send_ready(&host);
    answer(&host);
    hand(&host, rrp, sizeof rrp, 8 * sizeof rrp);
    printf("the request: %s\n", ncp_word(ncp_state(&host, B, ODD, EVEN, &it)));
    printf("up: %d\n", ncp_is_up(&host, B));
    ncp_free(&host);
    return 0;
}
