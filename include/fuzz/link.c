/* Random datagrams for the examples over link.h: `link SEED INPUTS`. Each is a message that is spoiled, often, and comes from the other
 * program, mostly; what goes out goes nowhere. The host goes on, whatever comes. */
#define _POSIX_C_SOURCE 200809L
#include "dice.h"
#include <sys/socket.h>
#include <sys/types.h>
#include <sys/un.h>

enum { ROOM = 2048, ME = 2, PEER = 1 };

static uint8_t datagram[ROOM];
static size_t datagram_len;
static bool is_from_there;

/* What comes in place of what a socket has. */
static ssize_t come(int socket, void *bytes, size_t room, int flags, struct sockaddr *from, socklen_t *from_len)
{
    struct sockaddr_un at;
    const size_t len = datagram_len < room ? datagram_len : room;
    (void)socket, (void)flags;
    memset(&at, 0, sizeof at);
    at.sun_family = AF_UNIX;
    strcpy(at.sun_path, is_from_there ? "there" : one_in(2) ? "" : "elsewhere");
    memcpy(from, &at, sizeof at < *from_len ? sizeof at : *from_len);
    memcpy(bytes, datagram, len);
    return (ssize_t)len;
}

static ssize_t go(int socket, const void *bytes, size_t len, int flags, const struct sockaddr *to, socklen_t to_len)
{
    (void)socket, (void)flags, (void)to, (void)to_len;
    for (size_t place = 0; place < len; place++) mix(((const uint8_t *)bytes)[place]);
    return (ssize_t)len;
}

#define recvfrom come
#define sendto go
#include "../../examples/embed/link.h"

/* An RST, a control message or a text of the other host, or an answer to this. */
static void make_datagram(void)
{
    static const uint8_t commands[][10] = {{12}, {13}, {1, 0, 0, 0, 2, 0, 0, 0, 3, 2}, {2, 0, 0, 0, 3, 0, 0, 0, 2, 8}, {3, 0, 0, 0, 3, 0, 0, 0, 2}, {9, 65}, {4, 2, 0, 1, 0, 0, 0, 64}};
    static const uint8_t lens[] = {1, 1, 10, 10, 9, 2, 8};
    const uint64_t which = pick(10);
    uint8_t *message = datagram + HEAD;
    size_t len = LEADER;
    memset(datagram, 0, 64);
    message[0] = which > 7 ? (uint8_t)(5 + 2 * pick(3)) : 0, message[1] = which > 7 ? PEER : ME;
    if (which <= 7) {
        message[5] = 8, message[7] = which == 7 ? (uint8_t)pick(20) : lens[which], message[2] = which == 7 ? 2 : 0;
        if (which < 7) memcpy(message + 9, commands[which], lens[which]);
        len = 9 + (size_t)message[7];
    }
    datagram[0] = (uint8_t)(len >> 5), datagram[1] = (uint8_t)(8 * len);
    datagram_len = HEAD + len;
    if (one_in(3)) datagram_len = spoil(datagram, datagram_len, ROOM);
    if (one_in(64)) datagram_len = (size_t)pick(ROOM);
    is_from_there = !one_in(8);
}

static void call(struct end *end)
{
    uint8_t text[NCP_LONGEST_MESSAGE];
    size_t bits = 0;
    if (one_in(4)) ncp_reset(&end->host, PEER);
    ncp_wake(&end->host, PEER); /* after Destination Dead */
    ncp_ask_receive(&end->host, PEER, 2, 3, 256);
    ncp_allocate(&end->host, PEER, 2, 3, 1, 64);
    if (ncp_take(&end->host, PEER, 2, 3, UINT32_MAX, text, sizeof text, &bits) == NCP_DONE) say_text(text, bits / 8);
}

int main(int argc, char **argv)
{
    const unsigned long inputs = begin_dice(argc, argv);
    static struct end end;
    const uint8_t peers[] = {PEER};
    unsigned long dropped;
    if (freopen("/dev/null", "w", stdout) == NULL) return 1;
    end.peer = PEER, end.there = address("there");
    HOLDS(ncp_new(&end.host, ME, peers, 1) == NCP_DONE);
    for (input = 1; input <= inputs; input++) {
        make_datagram();
        dropped = end.dropped;
        take_one(&end);
        HOLDS(end.dropped == dropped + (is_from_there ? end.dropped - dropped : 1));
        if (one_in(8)) call(&end);
        send_all(&end);
    }
    ncp_free(&end.host);
    fprintf(stderr, "%016llx %lu dropped\n", (unsigned long long)digest, (unsigned long)end.dropped);
    return 0;
}
