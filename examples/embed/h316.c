/* A host at the host interface of an H316 simulator's IMP: `h316 ME PEER HERE THERE`, its number, that of its peer, and
 * the UDP ports of the interface here and at the IMP. The host with the lower number sends a text to the other. While that is
 * in flight the IMP restarts, and loses it; so it is sent again. The output of both is in h316_1.txt and h316_2.txt, for
 * the small IMP of h316_imp.c. */
#define _POSIX_C_SOURCE 200809L
#include "h316.h"
#include <time.h>

enum { ODD = 3, EVEN = 2, ROOM = 1024 };

struct end {
    struct ncp_host host;
    uint8_t peer;
    struct line line;
};

static void send_all(struct end *end)
{
    uint8_t message[NCP_LONGEST_MESSAGE];
    size_t bits = 0;
    while (ncp_next_output(&end->host, message, sizeof message, &bits) == NCP_DONE) send_message(&end->line, message, bits);
}

/* The IMP has lost the messages of this host. Sends each unanswered one again. */
static void start_again(struct end *end)
{
    puts("the IMP was started anew");
    send_nops(&end->line);
    want(NCP_DONE, ncp_restart(&end->host, end->peer), "restart");
}

/* Waits for a message from the IMP, and passes it to the host. */
static void take_one(struct end *end)
{
    struct ncp_arrived arrived;
    size_t bits = take_part(&end->line);
    if (bits == 0) return;
    arrived = hand(&end->host, end->line.message, sizeof end->line.message, bits);
    if (arrived.kind == INTERFACE_RESET) start_again(end);
    if (arrived.kind == GOING_DOWN) puts("the IMP is going down");
}

/* Sends NOPs until the IMP is ready. */
static void come_up(struct end *end)
{
    const struct timespec little = {0, 50000000};
    for (int tries = 0; !end->line.is_ready; tries++) {
        if (tries == 20 * PATIENCE) give_up("the IMP is not ready");
        send_nops(&end->line);
        nanosleep(&little, NULL);
        while (is_there(&end->line)) take_one(end);
    }
}

static bool is_quiet(struct end *end)
{
    uint8_t message[NCP_LONGEST_MESSAGE];
    size_t count = 0;
    return ncp_kept(&end->host, end->peer, 0, message, sizeof message, &count) == NCP_NOTHING &&
           ncp_waiting(&end->host, end->peer, 0, message, sizeof message, &count) == NCP_NOTHING;
}

/* Sends and takes messages until something holds and the control link is quiet. */
static void until(struct end *end, bool (*holds)(struct end *end), const char *what)
{
    time_t begun = time(NULL);
    send_all(end);
    while (!(holds(end) && is_quiet(end))) {
        if (time(NULL) - begun > PATIENCE) give_up(what);
        take_one(end);
        send_all(end);
    }
    puts(what);
}

static bool is_up(struct end *end) { return ncp_is_up(&end->host, end->peer); }

static bool may_send(struct end *end)
{
    struct ncp_connection it;
    return ncp_state(&end->host, end->peer, ODD, EVEN, &it) == NCP_DONE && it.opened && it.messages > 0;
}

static bool has_sent(struct end *end)
{
    struct ncp_connection it;
    return ncp_state(&end->host, end->peer, ODD, EVEN, &it) == NCP_DONE && it.stored == 0 && !it.busy;
}

static bool may_receive(struct end *end) { return ncp_is_open(&end->host, end->peer, EVEN, ODD); }

static bool has_text(struct end *end)
{
    struct ncp_connection it;
    return ncp_state(&end->host, end->peer, EVEN, ODD, &it) == NCP_DONE && it.stored > 0;
}

static bool is_closed(struct end *end)
{
    struct ncp_connection it;
    return ncp_state(&end->host, end->peer, ODD, EVEN, &it) == NCP_NO_ENTRY &&
           ncp_state(&end->host, end->peer, EVEN, ODD, &it) == NCP_NO_ENTRY;
}

static void send_text(struct end *end)
{
    uint8_t text[500];
    for (size_t place = 0; place < sizeof text; place++) text[place] = (uint8_t)place;
    want(NCP_DONE, ncp_ask_send(&end->host, end->peer, ODD, EVEN, 8, 8 * sizeof text), "ask_send");
    until(end, may_send, "open");
    want(NCP_DONE, ncp_give(&end->host, end->peer, ODD, EVEN, text, sizeof text, 8 * sizeof text), "give");
    until(end, has_sent, "sent");
    want(NCP_DONE, ncp_close(&end->host, end->peer, ODD, EVEN), "close");
}

static void take_text(struct end *end)
{
    uint8_t text[NCP_LONGEST_MESSAGE];
    size_t bits = 0, same = 0;
    want(NCP_DONE, ncp_ask_receive(&end->host, end->peer, EVEN, ODD, 4096), "ask_receive");
    until(end, may_receive, "open");
    want(NCP_DONE, ncp_allocate(&end->host, end->peer, EVEN, ODD, 1, 4096), "allocate");
    until(end, has_text, "a text came");
    want(NCP_DONE, ncp_take(&end->host, end->peer, EVEN, ODD, UINT32_MAX, text, sizeof text, &bits), "take");
    while (same < bits / 8 && text[same] == (uint8_t)same) same++;
    printf("%u bytes, %u as they were sent\n", (unsigned)(bits / 8), (unsigned)same);
}

int main(int argc, char **argv)
{
    struct end end;
    uint8_t me;
    if (argc != 5) {
        fputs("usage: h316 ME PEER HERE THERE\n", stderr);
        return 2;
    }
    setvbuf(stdout, NULL, _IOLBF, 0);
    me = (uint8_t)number_in(argv[1], 0, 255), end.peer = (uint8_t)number_in(argv[2], 0, 255);
    end.host.at = NULL;
    attach(&end.line, argv[3], argv[4]);
    want(NCP_DONE, ncp_new(&end.host, me, &end.peer, 1), "new");
    come_up(&end);
    if (me < end.peer) want(NCP_DONE, ncp_reset(&end.host, end.peer), "reset");
    until(&end, is_up, "up");
    if (me < end.peer) send_text(&end);
    else take_text(&end);
    until(&end, is_closed, "closed");
    send_part(&end.line, LAST, NULL, 0); /* not ready any more */
    ncp_free(&end.host);
    detach(&end.line);
    return 0;
}
