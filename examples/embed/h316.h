/* The line between a host and its IMP at the host interface of the H316 simulator, as far as that is known here (README.md):
 * a datagram is `H316`, a sequence number, a count of words and flags, followed by the words of 16 bits, all with the most
 * significant byte first. A message is one datagram or more; the last one has the flag LAST, and its last word is padded
 * with zeros. Sequence numbers begin with 0 (another program may begin with 1), and wrap around after 32 bits. A malformed
 * datagram, or one with an unacceptable number, is counted and dropped; one from elsewhere does not reach a connected
 * socket. */
#ifndef H316_H
#define H316_H

#include "imp.h"
#include <arpa/inet.h>
#include <errno.h>
#include <netinet/in.h>
#include <poll.h>
#include <sys/socket.h>
#include <unistd.h>

enum {
    PATIENCE = 10,    /* seconds */
    WORDS_A_PART = 64, /* in a datagram */
    NAME = 4,         /* bytes of the header, up to the sequence number */
    HEAD = 12,        /* all bytes of the header */
    AHEAD = 16,       /* how many datagrams may be lost, at most, if the next one is to be accepted at once */
    PREFIX = 9,       /* bytes of a message before its text */
    PADDING = 52,     /* bits after a text, at most: up to a word of 36 bits, and the IMP's own up to one of 16 */
    LAST = 1,         /* flags: the message ends here */
    READY = 2         /* and who sends this is ready */
};

/* Types of messages that a host and its IMP exchange themselves (BBN 1822, section 3). */
enum { GOING_DOWN = NCP_TYPE_GOING_DOWN, NOP = NCP_TYPE_NOP, INTERFACE_RESET = NCP_TYPE_INTERFACE_RESET, NOPS = 3 /* how many, on coming up */ };

struct line {
    int socket;
    uint32_t next;                        /* the sequence number of the next datagram that is sent */
    uint32_t came;                        /* the last one that was taken */
    uint32_t seen;                        /* and the last that arrived, accepted or not */
    bool has_begun;                       /* whether one was taken */
    bool began_again;                     /* whether the numbers of the other end began again: who reads this clears it */
    size_t dropped;                       /* datagrams that were of no use */
    uint8_t message[NCP_LONGEST_MESSAGE]; /* the received part of a message */
    size_t len;
    bool is_ready; /* whether the other end is ready, by its last datagram */
};

static inline void give_up(const char *what)
{
    perror(what);
    exit(1);
}

/* Ends a program that cannot start with its command line. */
static inline void refuse(const char *word, const char *why)
{
    fprintf(stderr, "%s: %s\n", word, why);
    exit(2);
}

/* A number of the command line. */
static inline uint32_t number_in(const char *word, uint32_t least, uint32_t most)
{
    char why[64], *end;
    const unsigned long number = strtoul(word, &end, 10);
    snprintf(why, sizeof why, "a number from %lu to %lu is wanted", (unsigned long)least, (unsigned long)most);
    if (*word < '0' || *word > '9' || *end != '\0' || number < least || number > most) refuse(word, why);
    return (uint32_t)number;
}

static inline struct sockaddr_in at_port(const char *port)
{
    struct sockaddr_in at;
    memset(&at, 0, sizeof at);
    at.sin_family = AF_INET;
    at.sin_addr.s_addr = htonl(INADDR_LOOPBACK);
    at.sin_port = htons((uint16_t)number_in(port, 1, 65535));
    return at;
}

/* A line from a port here to one there, both of 127.0.0.1. */
static inline void attach(struct line *line, const char *here, const char *there)
{
    const struct sockaddr_in from = at_port(here), to = at_port(there);
    memset(line, 0, sizeof *line);
    line->socket = socket(AF_INET, SOCK_DGRAM, 0);
    if (line->socket < 0) give_up("socket");
    if (bind(line->socket, (const struct sockaddr *)&from, sizeof from) != 0) refuse(here, strerror(errno));
    if (connect(line->socket, (const struct sockaddr *)&to, sizeof to) != 0) give_up("connect");
}

/* Ends a line, and reports how many datagrams were dropped, if any were. */
static inline void detach(const struct line *line)
{
    if (line->dropped > 0) fprintf(stderr, "datagrams that were dropped: %lu\n", (unsigned long)line->dropped);
    close(line->socket);
}

static inline void put(uint8_t *at, uint32_t number, size_t bytes)
{
    for (size_t place = 0; place < bytes; place++) at[place] = (uint8_t)(number >> 8 * (bytes - 1 - place));
}

static inline uint32_t got(const uint8_t *at, size_t bytes)
{
    uint32_t number = 0;
    for (size_t place = 0; place < bytes; place++) number = number << 8 | at[place];
    return number;
}

/* Sends this many bytes of words as one datagram. If nobody listens yet, it is lost. */
static inline void send_part(struct line *line, uint16_t flags, const uint8_t *bytes, size_t len)
{
    uint8_t datagram[HEAD + 2 * WORDS_A_PART] = {'H', '3', '1', '6'};
    size_t words = (len + 1) / 2;
    put(datagram + NAME, line->next++, 4);
    put(datagram + 8, (uint32_t)words, 2);
    put(datagram + 10, flags, 2);
    if (len > 0) memcpy(datagram + HEAD, bytes, len);
    /* An error may be of the datagram before, for which nobody listened: then this one was not sent. */
    for (int tries = 0; tries < 2; tries++) {
        if (send(line->socket, datagram, HEAD + 2 * words, 0) >= 0) return;
        if (errno != ECONNREFUSED) give_up("send");
    }
}

/* Sends a message, whose spare bits are zero. */
static inline void send_message(struct line *line, const uint8_t *message, size_t bits)
{
    size_t len = (bits + 7) / 8, part = 2 * WORDS_A_PART;
    for (; len > part; message += part, len -= part) send_part(line, READY, message, part);
    send_part(line, READY | LAST, message, len);
}

static inline void send_leader(struct line *line, uint8_t type)
{
    const uint8_t leader[LEADER] = {type};
    send_message(line, leader, 8 * sizeof leader);
}

static inline void send_nops(struct line *line)
{
    for (int count = 0; count < NOPS; count++) send_leader(line, NOP);
}

/* Whether a datagram has arrived. */
static inline bool is_there(const struct line *line)
{
    struct pollfd ready = {line->socket, POLLIN, 0};
    return poll(&ready, 1, 0) > 0;
}

/* Whether a sequence number is acceptable: any at first, then up to AHEAD more than the last accepted one, or 0 or 1, since the other
 * end may have restarted. Any other is old or wrong, and accepted only if it follows the last one that arrived: so no single one blocks
 * the line. */
static inline bool is_next(struct line *line, uint32_t sequence)
{
    const uint32_t more = sequence - line->came;
    const bool follows = sequence == line->seen + 1;
    line->seen = sequence;
    return !line->has_begun || (more != 0 && (more <= AHEAD || sequence <= 1 || follows));
}

/* The number of bits of a message of this many bytes, without the padding of its last words. A regular message contains its length: the
 * spare bits of its last byte are cleared. */
static inline size_t cut_padding(uint8_t *message, size_t len)
{
    const size_t end = len < PREFIX ? 8 * len : 8 * (size_t)PREFIX + message[5] * got(message + 6, 2);
    if ((message[0] & 15) != REGULAR || end >= 8 * len || 8 * len - end > PADDING) return 8 * len;
    if (end % 8 != 0) message[end / 8] &= (uint8_t)(0xff << (8 - end % 8));
    return end;
}

/* Waits for a datagram, but not forever. If it ends a message, returns how many bits that has, without its padding; else 0. */
static inline size_t take_part(struct line *line)
{
    uint8_t datagram[HEAD + 2 * 65535];
    struct pollfd ready = {line->socket, POLLIN, 0};
    ssize_t len = poll(&ready, 1, 1000 * PATIENCE) > 0 ? recv(line->socket, datagram, sizeof datagram, 0) : -1;
    uint32_t sequence, flags;
    size_t bytes;
    if (len < 0) return 0;
    line->dropped++;
    if (len < HEAD || memcmp(datagram, "H316", NAME) != 0 || 2 * got(datagram + 8, 2) != (uint32_t)len - HEAD) return 0;
    sequence = got(datagram + NAME, 4), flags = got(datagram + 10, 2), bytes = (size_t)len - HEAD;
    if (!is_next(line, sequence)) return 0;
    line->dropped--;
    if (line->has_begun && sequence <= 1 && sequence - line->came > AHEAD) line->began_again = true;
    if (sequence != line->came + 1) line->len = 0; /* a part is missing, so those before are useless */
    line->came = sequence, line->has_begun = true;
    line->is_ready = (flags & READY) != 0;
    if (bytes > sizeof line->message - line->len) bytes = sizeof line->message - line->len; /* padding, or no message of a host */
    memcpy(line->message + line->len, datagram + HEAD, bytes);
    line->len += bytes;
    if ((flags & LAST) == 0) return 0;
    bytes = line->len;
    line->len = 0;
    return cut_padding(line->message, bytes);
}

#endif
