/* The events at two hosts: they come up, an echo is answered, a connection opens, a text and an interrupt arrive, and it closes; then an
 * RST finds its destination dead. After each call, and each message received or sent, a host prints its new events. The output is in
 * events.txt. */
#include "imp.h"
#include "ncp_events.h"

enum { A = 1, B = 2, ODD = 3, EVEN = 2, ROOM = 64 };

struct side {
    struct ncp_host host;
    struct ncp_watch watch;
};

static struct side sides[3]; /* by the number of the host */
static bool is_dead;         /* each destination */

static void say_events(uint8_t at)
{
    static const char *const words[] = {"",       "up",   "down",    "echoed",    "held",        "closed", "refused", "ended",
                                        "asks", "opened", "text", "allowed", "delivered", "interrupted", "closes"};
    struct ncp_event event;
    while (ncp_next_event(&sides[at].host, &sides[at].watch, &event)) {
        printf("%d: %s", at, words[event.what]);
        if (event.what >= NCP_EVENT_CLOSED) printf(" %lu %lu", (unsigned long)event.local, (unsigned long)event.remote);
        puts("");
    }
}

static void come(uint8_t to, const uint8_t *message, size_t len, size_t bits)
{
    hand(&sides[to].host, message, len, bits);
    say_events(to);
}

/* The network takes the next message of a host, if there is one, and delivers it. */
static bool carry(uint8_t from)
{
    uint8_t message[NCP_LONGEST_MESSAGE], answer[LEADER];
    size_t bits = 0;
    uint8_t to;
    if (ncp_next_output(&sides[from].host, message, sizeof message, &bits) != NCP_DONE) return false;
    say_events(from);
    answer_of(is_dead ? DEAD : RFNM, message, answer);
    to = message[1];
    message[1] = from;
    if (!is_dead) come(to, message, sizeof message, bits);
    come(from, answer, sizeof answer, 8 * sizeof answer);
    return true;
}

/* Prints the result of a call at a host, and sends all that is ready. */
static void called(uint8_t at, uint32_t answered, const char *what)
{
    want(NCP_DONE, answered, what);
    say_events(at);
    for (bool moved = true; moved;) {
        moved = carry(A);
        moved = carry(B) || moved;
    }
}

int main(void)
{
    const uint8_t peer_of_a[] = {B}, peer_of_b[] = {A}, text[] = {'h', 'i'};
    uint8_t taken[NCP_LONGEST_MESSAGE];
    size_t bits = 0;
    struct ncp_host *a = &sides[A].host, *b = &sides[B].host;
    want(NCP_DONE, ncp_new(a, A, peer_of_a, 1), "new");
    want(NCP_DONE, ncp_new(b, B, peer_of_b, 1), "new");
    sides[A].watch.peer = B, sides[B].watch.peer = A;
    called(A, ncp_reset(a, B), "reset");
    called(A, ncp_echo(a, B, 7), "echo");
    called(B, ncp_ask_receive(b, A, EVEN, ODD, ROOM), "ask_receive");
    called(A, ncp_ask_send(a, B, ODD, EVEN, 8, ROOM), "ask_send");
    called(B, ncp_allocate(b, A, EVEN, ODD, 1, ROOM), "allocate");
    called(A, ncp_give(a, B, ODD, EVEN, text, sizeof text, 8 * sizeof text), "give");
    called(B, ncp_interrupt(b, A, EVEN, ODD), "interrupt");
    called(A, ncp_close(a, B, ODD, EVEN), "close");
    called(B, ncp_take(b, A, EVEN, ODD, UINT32_MAX, taken, sizeof taken, &bits), "take");
    is_dead = true;
    called(A, ncp_reset(a, B), "reset");
    printf("%lu and %lu changes\n", (unsigned long)sides[A].watch.changes, (unsigned long)sides[B].watch.changes);
    ncp_free(a), ncp_free(b);
    return 0;
}
