/* A host of the examples at its end of a datagram socket: each message is a datagram, two bytes with its
 * number of bits, the most significant byte first, followed by the message. A datagram that is not from the other
 * program, or has no message, is counted and dropped: each program has to name the socket of the other as that names its own. */
#ifndef LINK_H
#define LINK_H

#include "imp.h"
#include <errno.h>
#include <sys/socket.h>
#include <sys/time.h>
#include <sys/un.h>
#include <time.h>
#include <unistd.h>

enum { HEAD = 2, PATIENCE = 10 /* seconds */ };

struct end {
    struct ncp_host host;
    uint8_t peer;
    int socket;
    struct sockaddr_un there;
    bool loses;     /* whether the next text is lost on the way */
    size_t dropped; /* datagrams that were of no use */
};

static inline void give_up(const char *what)
{
    perror(what);
    exit(1);
}

static inline struct sockaddr_un address(const char *path)
{
    struct sockaddr_un at;
    if (strlen(path) >= sizeof at.sun_path) {
        errno = ENAMETOOLONG;
        give_up(path);
    }
    memset(&at, 0, sizeof at);
    at.sun_family = AF_UNIX;
    strncpy(at.sun_path, path, sizeof at.sun_path - 1);
    return at;
}

/* An end with its host: its socket has a path here, and its peer's socket a path there. */
static inline void begin(struct end *end, uint8_t me, uint8_t peer, const char *here, const char *there)
{
    struct sockaddr_un at = address(here);
    struct timeval patience = {PATIENCE, 0};
    end->host.at = NULL;
    end->peer = peer;
    end->loses = false;
    end->dropped = 0;
    end->there = address(there);
    end->socket = socket(AF_UNIX, SOCK_DGRAM, 0);
    if (end->socket < 0) give_up("socket");
    if (bind(end->socket, (const struct sockaddr *)&at, sizeof at) != 0) give_up("bind");
    if (setsockopt(end->socket, SOL_SOCKET, SO_RCVTIMEO, &patience, sizeof patience) != 0) give_up("setsockopt");
    want(NCP_DONE, ncp_new(&end->host, me, &peer, 1), "new");
}

/* Sends a message as a datagram. While the other program has no socket yet it waits a little. */
static inline void post(const struct end *end, const uint8_t *message, size_t bits)
{
    uint8_t datagram[HEAD + NCP_LONGEST_MESSAGE];
    size_t len = (bits + 7) / 8;
    struct timespec little = {0, 10000000};
    datagram[0] = (uint8_t)(bits >> 8);
    datagram[1] = (uint8_t)bits;
    memcpy(datagram + HEAD, message, len);
    for (int tries = 0; tries < 100 * PATIENCE; tries++) {
        if (sendto(end->socket, datagram, HEAD + len, 0, (const struct sockaddr *)&end->there, sizeof end->there) >= 0) return;
        if (errno != ENOENT && errno != ECONNREFUSED) break;
        nanosleep(&little, NULL);
    }
    give_up("sendto");
}

/* Sends all that the host has to send. */
static inline void send_all(struct end *end)
{
    uint8_t message[NCP_LONGEST_MESSAGE];
    uint8_t answer[LEADER];
    size_t bits = 0;
    while (ncp_next_output(&end->host, message, sizeof message, &bits) == NCP_DONE) {
        say("out", message, bits);
        if (end->loses && message[2] != 0) {
            end->loses = false;
            puts("  lost");
            answer_of(INCOMPLETE, message, answer);
            hand(&end->host, answer, sizeof answer, 8 * sizeof answer);
        } else {
            post(end, message, bits);
        }
    }
}

/* Waits for a datagram, with room for one byte more than a message. Returns its length, or 0 if it is from elsewhere. */
static inline size_t wait_for_one(struct end *end, uint8_t datagram[HEAD + NCP_LONGEST_MESSAGE + 1])
{
    struct sockaddr_un from;
    socklen_t from_len = sizeof from;
    ssize_t len;
    memset(&from, 0, sizeof from);
    len = recvfrom(end->socket, datagram, HEAD + NCP_LONGEST_MESSAGE + 1, 0, (struct sockaddr *)&from, &from_len);
    if (len < 0) give_up("recv");
    return strncmp(from.sun_path, end->there.sun_path, sizeof from.sun_path) == 0 ? (size_t)len : 0;
}

/* Passes the message of a datagram of this length to the host, if it has one. A message of the other host is answered by RFNM, as
 * by a network, whose leaders name the source. */
static inline bool take_message(struct end *end, uint8_t *datagram, size_t len)
{
    uint8_t *message = datagram + HEAD;
    uint8_t answer[LEADER];
    size_t bits = (size_t)datagram[0] << 8 | datagram[1];
    bool is_regular = message[0] == REGULAR;
    struct ncp_arrived arrived;
    if (len < HEAD + LEADER || len > HEAD + NCP_LONGEST_MESSAGE || bits < 8 * LEADER) return false;
    answer_of(RFNM, message, answer);
    if (is_regular) message[1] = end->peer;
    if (ncp_receive(&end->host, message, len - HEAD, bits, &arrived) != NCP_DONE) return false;
    if (is_regular) post(end, answer, 8 * sizeof answer);
    return true;
}

/* Waits for a datagram, and receives the message in it, if it has one. */
static inline void take_one(struct end *end)
{
    uint8_t datagram[HEAD + NCP_LONGEST_MESSAGE + 1] = {0};
    if (!take_message(end, datagram, wait_for_one(end, datagram))) end->dropped++;
}

static inline bool end_is_up(struct end *end)
{
    return ncp_is_up(&end->host, end->peer);
}

/* Whether the control link has no unanswered and no queued message. */
static inline bool is_quiet(struct end *end)
{
    uint8_t message[NCP_LONGEST_MESSAGE];
    size_t count = 0;
    return ncp_kept(&end->host, end->peer, 0, message, sizeof message, &count) == NCP_NOTHING &&
           ncp_waiting(&end->host, end->peer, 0, message, sizeof message, &count) == NCP_NOTHING;
}

/* Sends and takes messages until something holds and the control link is quiet. */
static inline void until(struct end *end, bool (*holds)(struct end *end))
{
    send_all(end);
    while (!(holds(end) && is_quiet(end))) {
        take_one(end);
        send_all(end);
    }
}

static inline void finish(struct end *end, const char *here)
{
    if (end->dropped > 0) fprintf(stderr, "datagrams that were dropped: %lu\n", (unsigned long)end->dropped);
    ncp_free(&end->host);
    close(end->socket);
    unlink(here);
}

#endif
