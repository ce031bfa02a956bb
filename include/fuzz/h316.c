/* Random datagrams for the examples over h316.h: `h316 SEED INPUTS`. Each is a part of a message with a sequence number, which is spoiled,
 * often. After any of them the line takes at the latest the second of two parts that follow one another. */
#define _POSIX_C_SOURCE 200809L
#include "dice.h"
#include <arpa/inet.h>
#include <netinet/in.h>
#include <poll.h>
#include <sys/socket.h>
#include <sys/types.h>
#include <unistd.h>

enum { ROOM = 4096, ME = 2, PEER = 1 };

static uint8_t datagram[ROOM];
static size_t datagram_len;

static int is_ready(struct pollfd *fds, unsigned long count, int timeout)
{
    (void)fds, (void)count, (void)timeout;
    return 1;
}

static ssize_t come(int socket, void *bytes, size_t room, int flags)
{
    const size_t len = datagram_len < room ? datagram_len : room;
    (void)socket, (void)flags;
    memcpy(bytes, datagram, len);
    return (ssize_t)len;
}

static ssize_t go(int socket, const void *bytes, size_t len, int flags)
{
    (void)socket, (void)flags;
    for (size_t place = 0; place < len; place++) mix(((const uint8_t *)bytes)[place]);
    return (ssize_t)len;
}

#define poll is_ready
#define recv come
#define send go
#include "../../examples/embed/h316.h"

static struct line line;
static struct ncp_host host;

/* A part of a message with this sequence number. */
static void make_part(uint32_t sequence)
{
    static const uint8_t rst[] = {0, PEER, 0, 0, 0, 8, 0, 1, 0, 12}, nop[] = {4, 0, 0, 0}, rfnm[] = {5, PEER, 0, 0};
    const uint64_t which = pick(4);
    const uint8_t *bytes = which == 0 ? rst : which == 1 ? nop : rfnm;
    size_t len = which == 0 ? sizeof rst : which == 1 ? sizeof nop : sizeof rfnm;
    memset(datagram, 0, HEAD);
    memcpy(datagram, "H316", NAME);
    memcpy(datagram + HEAD, bytes, len);
    if (which == 3) len = 2 * (size_t)pick(600);
    put(datagram + NAME, sequence, 4), put(datagram + 8, (uint32_t)len / 2, 2), put(datagram + 10, READY | (one_in(4) ? 0 : LAST), 2);
    datagram_len = HEAD + len;
}

static void take(void)
{
    struct ncp_arrived arrived;
    uint8_t message[NCP_LONGEST_MESSAGE];
    const size_t bits = take_part(&line);
    size_t out = 0;
    HOLDS(bits <= 8 * sizeof line.message && line.len <= sizeof line.message);
    if (bits > 0) HOLDS(ncp_receive(&host, line.message, sizeof line.message, bits, &arrived) == NCP_DONE);
    while (ncp_next_output(&host, message, sizeof message, &out) == NCP_DONE) send_message(&line, message, out);
}

int main(int argc, char **argv)
{
    const unsigned long inputs = begin_dice(argc, argv);
    const uint8_t peers[] = {PEER};
    HOLDS(ncp_new(&host, ME, peers, 1) == NCP_DONE);
    for (input = 1; input <= inputs; input++) {
        const uint32_t next = one_in(4) ? edge() : line.came + 1;
        make_part(next);
        if (one_in(2)) datagram_len = spoil(datagram, datagram_len, ROOM);
        take();
        if (one_in(16)) ncp_wake(&host, PEER); /* after Destination Dead */
        if (one_in(16)) {
            const uint32_t from = one_in(2) ? edge() : line.came + (uint32_t)pick(3);
            make_part(from), take();
            make_part(from + 1), take();
            HOLDS(line.came == from + 1);
        }
    }
    ncp_free(&host);
    fprintf(stderr, "%016llx %lu dropped\n", (unsigned long long)digest, (unsigned long)line.dropped);
    return 0;
}
