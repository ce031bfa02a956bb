/* Datagrams of a stranger, or of the other program, to link.h: `link_test HERE THERE ELSEWHERE`, the paths of three sockets. Each useless
 * datagram is dropped without effect, and the two hosts go on. It prints a text of a peer, as in link_test.txt. */
#define _POSIX_C_SOURCE 200809L
#include "link.h"

enum { ONE = 1, OTHER = 2, LONGEST_SAVED = 4096 };

static struct end one, other;

static void is(size_t wanted, size_t found, int line)
{
    if (wanted == found) return;
    printf("line %d: %lu in place of %lu\n", line, (unsigned long)found, (unsigned long)wanted);
    exit(1);
}
#define IS(wanted, found) is(wanted, found, __LINE__)

static void send_from(int socket, const uint8_t *bytes, size_t len)
{
    if (sendto(socket, bytes, len, 0, (const struct sockaddr *)&one.there, sizeof one.there) < 0) give_up("sendto");
}

/* A datagram to the other host, after which it is as before. */
static void is_dropped(int socket, const uint8_t *bytes, size_t len, int line)
{
    uint8_t before[LONGEST_SAVED], after[LONGEST_SAVED];
    size_t before_len = 0, after_len = 0, dropped = other.dropped;
    want(NCP_DONE, ncp_save(&other.host, before, sizeof before, &before_len), "save");
    send_from(socket, bytes, len);
    take_one(&other);
    want(NCP_DONE, ncp_save(&other.host, after, sizeof after, &after_len), "save");
    is(dropped + 1, other.dropped, line);
    is(before_len, after_len, line);
    is(0, memcmp(before, after, before_len) != 0, line);
}
#define DROPPED(socket, bytes, len) is_dropped(socket, bytes, len, __LINE__)

static void no_messages(void)
{
    static const uint8_t spare[] = {0, 33, 0, OTHER, 0, 0, 1}, few[] = {0, 80, 0, OTHER, 0, 0}, bits[] = {0, 31, 0, OTHER, 0, 0};
    uint8_t many[HEAD + NCP_LONGEST_MESSAGE + 1] = {0};
    DROPPED(one.socket, many, 0);
    DROPPED(one.socket, many, 1);
    DROPPED(one.socket, few, HEAD + LEADER - 1);
    DROPPED(one.socket, few, sizeof few);     /* fewer bytes than its count */
    DROPPED(one.socket, bits, sizeof bits);   /* fewer bits than a leader has */
    DROPPED(one.socket, spare, sizeof spare); /* a spare bit is set */
    many[0] = 0x20, many[1] = 1;
    DROPPED(one.socket, many, sizeof many - 1); /* 8193 bits */
    many[1] = 0;
    DROPPED(one.socket, many, sizeof many); /* 8192 bits, and a byte more than they take */
}

/* An RST of host 1 that is not from its socket. */
static void strangers(const char *elsewhere)
{
    static const uint8_t rst[] = {0, 80, 0, OTHER, 0, 0, 0, 8, 0, 1, 0, 12};
    struct sockaddr_un at = address(elsewhere);
    int nameless = socket(AF_UNIX, SOCK_DGRAM, 0), named = socket(AF_UNIX, SOCK_DGRAM, 0);
    if (nameless < 0 || named < 0 || bind(named, (const struct sockaddr *)&at, sizeof at) != 0) give_up("socket");
    DROPPED(nameless, rst, sizeof rst);
    DROPPED(named, rst, sizeof rst);
    close(nameless), close(named);
    unlink(elsewhere);
}

int main(int argc, char **argv)
{
    static const uint8_t text[] = {'h', 'i', ' ', '~', 27, '[', '2', 'J', '\n', 0, 0x7f, 0x80, 0xff, '\\', '%', 's'};
    if (argc != 4) {
        fputs("usage: link_test HERE THERE ELSEWHERE\n", stderr);
        return 2;
    }
    begin(&one, ONE, OTHER, argv[1], argv[2]);
    begin(&other, OTHER, ONE, argv[2], argv[1]);
    no_messages();
    strangers(argv[3]);
    IS(10, other.dropped);
    want(NCP_DONE, ncp_reset(&one.host, OTHER), "reset");
    send_all(&one), take_one(&other);                    /* the RST */
    send_all(&other), take_one(&one), take_one(&one);    /* its RFNM, and the RRP */
    take_one(&other);                                    /* the RFNM of that */
    IS(1, end_is_up(&one) && end_is_up(&other));
    IS(10, other.dropped);
    IS(0, one.dropped);
    say_text(text, sizeof text);
    other.dropped = 0;
    finish(&one, argv[1]);
    finish(&other, argv[2]);
    return 0;
}
