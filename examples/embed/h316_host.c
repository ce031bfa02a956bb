/* A host that stays up, at the host interface of an H316 simulator's IMP:
 *
 *     h316_host [-w FILE] ME HERE THERE SOCKET [PEER..]
 *
 * Its number, the UDP ports of the interface here and at the IMP, its contact socket, and its peers: by default, all other numbers. It
 * accepts each connection to its contact socket, an even one, and prints the text received there. It also accepts connections from the
 * odd socket after it: there it sends back what the same peer sends from the socket after its own (from 3 to the contact socket, and back
 * to 2). It refuses all else. If the IMP was restarted, unanswered messages are sent again. With -w it writes a message file
 * (docs/FORMATS.md). It ends at SIGINT, SIGTERM or SIGHUP. Its output for the IMP of h316_host_test.c is in h316_host.txt. */
#define _POSIX_C_SOURCE 200809L
#include "h316.h"
#include "ncp_capture.h"
#include "ncp_events.h"
#include "peers.h"
#include <signal.h>

enum {
    SILENCE = 1000,   /* milliseconds without a datagram, after which this host announces again that it is ready */
    BURST = 64,       /* datagrams, at most, that are read before the replies are sent */
    ROOM = 8 * 1024,  /* bits of a text that is stored */
    MESSAGES = 8,     /* texts that a peer may send at once, at most */
    SIZE = 8          /* bits in a byte of what goes back */
};

static struct many host; /* these are of zeros */
static struct ncp_watch watches[NUMBERS];
static struct line line;
static uint8_t me;
static uint32_t contact;
static FILE *capture;
static bool was_ready;                                       /* the IMP, once */
static enum { NOTHING, RESETS, WHAT_IS_UNANSWERED } is_due; /* to be sent, since the IMP came up */
static volatile sig_atomic_t is_over;

static void end_at_signal(int number)
{
    (void)number;
    is_over = 1;
}

/* Writes a message to the message file, if there is one, until a write fails. */
static void note(enum ncp_direction direction, const uint8_t *message, size_t bits)
{
    if (capture == NULL || ncp_capture_message(capture, direction, me, message, bits)) return;
    perror("the message file ends here");
    fclose(capture);
    capture = NULL;
}

static void post(const uint8_t *message, size_t bits)
{
    note(NCP_TO_IMP, message, bits);
    send_message(&line, message, bits);
}

static void post_nops(void)
{
    const uint8_t nop[LEADER] = {NOP};
    for (int count = 0; count < NOPS; count++) post(nop, 8 * sizeof nop);
}

/* Begins a line about a connection, by its sockets here and there. */
static void say_sockets(uint8_t peer, uint32_t local, uint32_t remote)
{
    printf("host %d, sockets %lu and %lu: ", peer, (unsigned long)local, (unsigned long)remote);
}

/* Prints the new events of a peer. */
static void say_events(uint8_t peer)
{
    struct ncp_event event;
    watches[peer].peer = peer;
    while (ncp_next_event(part_of(&host, peer), &watches[peer], &event)) {
        if (event.what == NCP_EVENT_UP) printf("host %d is up\n", peer);
        if (event.what == NCP_EVENT_DOWN) printf("host %d is down\n", peer);
        if (event.what != NCP_EVENT_OPENED && event.what != NCP_EVENT_ENDED) continue;
        say_sockets(peer, event.local, event.remote);
        puts(event.what == NCP_EVENT_OPENED ? "open" : "closed");
    }
}

static void send_all(void)
{
    uint8_t message[NCP_LONGEST_MESSAGE];
    size_t bits = 0;
    while (line.is_ready && next_output(&host, message, &bits)) {
        post(message, bits);
        say_events(message[1]);
    }
}

/* Accepts a request of a peer for one of the two sockets, and refuses any other. If neither is possible now, retries at the next input. */
static void answer_request(uint8_t peer, uint32_t local, uint32_t remote)
{
    struct ncp_host *part = part_of(&host, peer);
    uint32_t code = NCP_NO_ENTRY;
    if (local == contact) code = ncp_ask_receive(part, peer, local, remote, ROOM);
    if (local == contact + 1) code = ncp_ask_send(part, peer, local, remote, SIZE, ROOM);
    if (code == NCP_DONE || ncp_close(part, peer, local, remote) != NCP_DONE) return;
    say_sockets(peer, local, remote);
    puts(code == NCP_NO_ENTRY ? "refused, since nobody listens there" : "refused, since there is no room");
}

/* Whether text that a peer sends from a socket goes back to the socket before it. */
static bool goes_back(uint8_t peer, uint32_t remote, uint8_t size)
{
    return size == SIZE && ncp_is_open(part_of(&host, peer), peer, contact + 1, remote - 1);
}

/* How many bytes of such a text may be taken: as many as there is room for on their way back. */
static uint32_t bytes_to_take(uint8_t peer, uint32_t remote, uint8_t size)
{
    struct ncp_connection back;
    uint32_t room = 0;
    if (!goes_back(peer, remote, size)) return UINT32_MAX;
    want(NCP_DONE, ncp_state(part_of(&host, peer), peer, contact + 1, remote - 1, &back), "state");
    want(NCP_DONE, ncp_room(part_of(&host, peer), peer, contact + 1, remote - 1, &room), "room");
    return (room - back.stored) / SIZE;
}

/* Prints a text, as letters if its bytes have eight bits, and sends it back. */
static void use_text(uint8_t peer, uint32_t remote, uint8_t size, const uint8_t *text, size_t bits)
{
    const size_t len = (bits + 7) / 8;
    say_sockets(peer, contact, remote);
    if (size == 8) printf("text "), say_text(text, len);
    else say("text in digits", text, bits);
    if (goes_back(peer, remote, size)) want(NCP_DONE, ncp_give(part_of(&host, peer), peer, contact + 1, remote - 1, text, len, bits), "give");
}

/* Takes the text of a connection, and allows more once half of what was allowed is used up. */
static void take_text(uint8_t peer, uint32_t remote)
{
    struct ncp_host *part = part_of(&host, peer);
    uint8_t text[NCP_LONGEST_MESSAGE];
    size_t bits;
    uint32_t most;
    struct ncp_connection it;
    while (ncp_state(part, peer, contact, remote, &it) == NCP_DONE && it.stored > 0 && (most = bytes_to_take(peer, remote, it.size)) > 0) {
        if (ncp_take(part, peer, contact, remote, most, text, sizeof text, &bits) != NCP_DONE) return;
        use_text(peer, remote, it.size, text, bits);
    }
    if (!ncp_is_open(part, peer, contact, remote)) return;
    if (it.messages > MESSAGES / 2 && it.bits + it.stored > ROOM / 2) return;
    ncp_allocate(part, peer, contact, remote, (uint16_t)(MESSAGES - it.messages), ROOM - it.bits - it.stored);
}

/* Serves each connection with a peer. */
static void serve(uint8_t peer)
{
    uint32_t local, remote, place = 0;
    struct ncp_connection it;
    while (ncp_connection_at(part_of(&host, peer), peer, place, &local, &remote, &it) == NCP_DONE) {
        if (it.heard && !it.asked && !it.left) answer_request(peer, local, remote);
        if (local == contact) take_text(peer, remote);
        if (ncp_state(part_of(&host, peer), peer, local, remote, &it) == NCP_DONE) place++; /* else another is at this place now */
    }
}

/* Receives a message from the IMP. Its sender is not dead, so messages held for it are sent again. */
static void take_message(size_t bits)
{
    struct ncp_host *part = part_of(&host, line.message[1]);
    struct ncp_arrived arrived;
    uint8_t incomplete[LEADER];
    note(NCP_FROM_IMP, line.message, bits);
    answer_of(INCOMPLETE, line.message, incomplete);
    arrived = hand(part, line.message, sizeof line.message, bits);
    if (arrived.what == NCP_ARRIVED_SHORT) return;
    if (arrived.kind == GOING_DOWN) puts("the IMP is going down");
    if (arrived.kind == NCP_TYPE_ERROR_IN_MESSAGE) hand(part, incomplete, sizeof incomplete, 8 * sizeof incomplete);
    if (arrived.kind == REGULAR) ncp_wake(part, arrived.peer);
    serve(arrived.peer);
    say_events(arrived.peer);
}

/* The IMP came up, for the first time or again. */
static void imp_came_up(void)
{
    puts(was_ready ? "the IMP was restarted" : "the IMP is ready");
    if (is_due == NOTHING) is_due = was_ready ? WHAT_IS_UNANSWERED : RESETS;
    was_ready = true;
}

/* Receives a datagram. An IMP came up if it is ready and was not before, restarts its numbers, or reports a reset of its interface. */
static void take_one(void)
{
    const bool was_down = !line.is_ready;
    const size_t bits = take_part(&line);
    const bool is_reset = bits >= 8 * LEADER && (line.message[0] & 15) == INTERFACE_RESET;
    if ((was_down && line.is_ready) || line.began_again || is_reset) imp_came_up();
    line.began_again = false;
    if (bits > 0) take_message(bits);
}

/* Resets with each peer, or sends each message again that the IMP did not answer before its restart. */
static void start_again(void)
{
    post_nops();
    for (int peer = 0; peer < NUMBERS; peer++) {
        if (!host.is_peer[peer]) continue;
        if (is_due == RESETS) ncp_reset(part_of(&host, (uint8_t)peer), (uint8_t)peer);
        else ncp_restart(part_of(&host, (uint8_t)peer), (uint8_t)peer);
    }
    is_due = NOTHING;
}

/* Waits for datagrams, and answers them. After a long silence the IMP may have restarted, and needs to know who is ready. */
static void go_on(void)
{
    struct pollfd ready = {line.socket, POLLIN, 0};
    const bool is_silent = poll(&ready, 1, SILENCE) == 0;
    if (is_silent && line.is_ready) send_part(&line, READY, NULL, 0);
    if (is_silent && !line.is_ready) post_nops();
    for (int count = 0; count < BURST && is_there(&line); count++) take_one();
    if (is_due != NOTHING && line.is_ready) start_again();
    send_all();
}

/* The host with the peers of the command line, or with all other numbers. */
static void make_host(int count, char **words)
{
    uint8_t peers[NUMBERS];
    size_t each = 0;
    uint32_t code;
    if (count >= NUMBERS) refuse("peers", "255 at most");
    for (; each < (size_t)count; each++) peers[each] = (uint8_t)number_in(words[each], 0, NUMBERS - 1);
    for (int number = 0; count == 0 && number < NUMBERS; number++) {
        if (number != me) peers[each++] = (uint8_t)number;
    }
    code = make_many(&host, me, peers, each);
    if (code == NCP_NEW_BAD_PEERS) refuse("peers", "one is named twice, or is this host");
    if (code != NCP_DONE) refuse("peers", ncp_word(code));
}

static void begin(int argc, char **argv)
{
    const char *path = NULL;
    struct sigaction ends;
    int option;
    while ((option = getopt(argc, argv, "w:")) == 'w') path = optarg;
    if (option != -1 || argc - optind < 4) {
        fputs("usage: h316_host [-w FILE] ME HERE THERE SOCKET [PEER..]\n", stderr);
        exit(2);
    }
    argv += optind, argc -= optind;
    me = (uint8_t)number_in(argv[0], 0, NUMBERS - 1);
    contact = number_in(argv[3], 0, UINT32_MAX);
    if (contact % 2 != 0) refuse(argv[3], "an even socket is wanted, since texts come there");
    make_host(argc - 4, argv + 4);
    attach(&line, argv[1], argv[2]);
    if (path != NULL && ((capture = fopen(path, "wb")) == NULL || !ncp_capture_begin(capture))) refuse(path, strerror(errno));
    setvbuf(stdout, NULL, _IOLBF, 0);
    memset(&ends, 0, sizeof ends);
    ends.sa_handler = end_at_signal;
    ends.sa_flags = SA_RESTART; /* a write or a send is completed; a wait ends */
    sigaction(SIGINT, &ends, NULL), sigaction(SIGTERM, &ends, NULL), sigaction(SIGHUP, &ends, NULL);
    signal(SIGPIPE, SIG_IGN); /* a write that fails is no end */
}

int main(int argc, char **argv)
{
    begin(argc, argv);
    post_nops();
    while (!is_over) go_on();
    send_part(&line, LAST, NULL, 0); /* not ready any more */
    free_many(&host);
    detach(&line);
    return capture == NULL || fclose(capture) == 0 ? 0 : 2;
}
