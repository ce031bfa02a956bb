/* Two hosts in one process, and the network between them: they come up, a connection opens, a text is lost
 * and sent again, and the connection closes. The output is in two_hosts.txt. */
#include "imp.h"

enum { A = 1, B = 2, ODD = 3, EVEN = 2, LINK = 2 };

/* Carries the next message of one host to the other, or loses it; the network answers its host.
 * Returns whether there was one. */
static bool carry(struct ncp_host *from, uint8_t me, struct ncp_host *to, bool lose)
{
    uint8_t message[NCP_LONGEST_MESSAGE];
    uint8_t answer[LEADER];
    size_t bits = 0;
    uint32_t code = ncp_next_output(from, message, sizeof message, &bits);
    if (code == NCP_NOTHING) return false;
    want(NCP_DONE, code, "next_output");
    say(me == A ? "a to b" : "b to a", message, bits);
    answer_of(lose ? INCOMPLETE : RFNM, message, answer);
    if (lose) {
        puts("  lost");
    } else {
        /* The leader of a received message names its source. */
        message[1] = me;
        hand(to, message, sizeof message, bits);
    }
    hand(from, answer, sizeof answer, 8 * sizeof answer);
    return true;
}

/* Carries messages until neither host has one. */
static void settle(struct ncp_host *a, struct ncp_host *b)
{
    for (bool moved = true; moved;) {
        moved = carry(a, A, b, false);
        moved = carry(b, B, a, false) || moved;
    }
}

static void say_up(struct ncp_host *host, uint8_t peer, const char *name)
{
    printf("%s is %s\n", name, ncp_is_up(host, peer) ? "up" : "not up");
}

static void say_state(struct ncp_host *host, uint8_t peer, uint32_t local, uint32_t remote, const char *name)
{
    struct ncp_connection it;
    uint32_t code = ncp_state(host, peer, local, remote, &it);
    if (code == NCP_DONE) {
        printf("%s %s: opened=%d link=%d size=%d messages=%d bits=%u stored=%u\n", name,
               it.sends ? "sends" : "receives", it.opened, it.link, it.size, it.messages, (unsigned)it.bits,
               (unsigned)it.stored);
    } else {
        printf("%s: %s\n", name, ncp_word(code));
    }
}

int main(void)
{
    struct ncp_host a = NCP_EMPTY;
    struct ncp_host b = NCP_EMPTY;
    const uint8_t peer_of_a[] = {B};
    const uint8_t peer_of_b[] = {A};
    const uint8_t hello[] = {'h', 'e', 'l', 'l', 'o'};
    uint8_t text[NCP_LONGEST_MESSAGE];
    size_t bits = 0;

    /* Without a host nothing is done. */
    want(NCP_NO_HOST, ncp_reset(&a, B), "reset of no host");
    want(NCP_NO_HOST, ncp_reset(NULL, B), "reset of a null handle");
    want(NCP_NEW_BAD_PEERS, ncp_new(&a, A, peer_of_b, 1), "a host that is its own peer");
    want(NCP_DONE, ncp_new(&a, A, peer_of_a, 1), "new");
    want(NCP_DONE, ncp_new(&b, B, peer_of_b, 1), "new");
    want(NCP_NO_POINTER, ncp_take(&b, A, EVEN, ODD, 5, NULL, sizeof text, &bits), "take into nothing");
    want(NCP_SHORT_BUFFER, ncp_take(&b, A, EVEN, ODD, 5, text, 5, &bits), "take into five bytes");
    want(NCP_NOT_UP, ncp_ask_send(&a, B, ODD, EVEN, 8, 1024), "ask_send before a reset");

    want(NCP_DONE, ncp_reset(&a, B), "reset");
    settle(&a, &b);
    say_up(&a, B, "a");
    say_up(&b, A, "b");

    want(NCP_DONE, ncp_ask_receive(&b, A, EVEN, ODD, 1024), "ask_receive");
    settle(&a, &b);
    want(NCP_DONE, ncp_ask_send(&a, B, ODD, EVEN, 8, 1024), "ask_send");
    settle(&a, &b);
    want(NCP_DONE, ncp_allocate(&b, A, EVEN, ODD, 2, 64), "allocate");
    settle(&a, &b);
    say_state(&a, B, ODD, EVEN, "a");

    want(NCP_SHORT_BYTES, ncp_give(&a, B, ODD, EVEN, hello, sizeof hello, 41), "give of 41 bits of five bytes");
    want(NCP_DONE, ncp_give(&a, B, ODD, EVEN, hello, sizeof hello, 40), "give");
    carry(&a, A, &b, true);
    settle(&a, &b);
    say_state(&a, B, ODD, EVEN, "a");
    say_state(&b, A, EVEN, ODD, "b");
    want(NCP_DONE, ncp_take(&b, A, EVEN, ODD, 100, text, sizeof text, &bits), "take");
    printf("b took %d bits: ", (int)bits);
    say_text(text, bits / 8);

    want(NCP_DONE, ncp_close(&a, B, ODD, EVEN), "close");
    settle(&a, &b);
    say_state(&a, B, ODD, EVEN, "a");
    say_state(&b, A, EVEN, ODD, "b");
    ncp_free(&a);
    ncp_free(&b);
    return 0;
}
