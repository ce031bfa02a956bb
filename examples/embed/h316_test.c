/* The input on a line of h316.h: `h316_test HERE THERE ELSEWHERE`, three UDP ports. A malformed datagram, an old one, and one with a wrong
 * sequence number is dropped, and the line goes on. It prints nothing if all is correct. */
#define _POSIX_C_SOURCE 200809L
#include "h316.h"

static struct line one, other;

static void is(uint32_t wanted, uint32_t found, int place)
{
    if (wanted == found) return;
    printf("line %d: %lu in place of %lu\n", place, (unsigned long)found, (unsigned long)wanted);
    exit(1);
}

/* Sends these raw bytes, and returns what is received from them. */
static size_t send_raw(const uint8_t *bytes, size_t len)
{
    if (send(one.socket, bytes, len, 0) < 0) give_up("send");
    return take_part(&other);
}

/* One word with a sequence number, which ends a message if it has this flag. */
static size_t send_word(uint32_t sequence, uint16_t flags)
{
    static const uint8_t word[] = {4, 0};
    one.next = sequence;
    send_part(&one, flags, word, sizeof word);
    return take_part(&other);
}
#define TAKEN(sequence) is(16, (uint32_t)send_word(sequence, READY | LAST), __LINE__)
#define DROPPED(sequence) is(0, (uint32_t)send_word(sequence, READY | LAST), __LINE__)

/* The first datagram of a line has the number 0, and is taken. */
static void begins_with_0(void)
{
    send_leader(&one, NOP);
    is(32, (uint32_t)take_part(&other), __LINE__);
    is(0, other.came, __LINE__);
    send_leader(&one, NOP);
    is(32, (uint32_t)take_part(&other), __LINE__);
    is(1, other.came, __LINE__);
}

static void other_forms(void)
{
    const uint8_t part[] = {'H', '3', '1', '6', 0, 0, 0, 2, 0, 1, 0, 3, 4, 0};
    uint8_t spoiled[sizeof part + 1] = {0};
    for (size_t len = 0; len < sizeof part; len++) is(0, (uint32_t)send_raw(part, len), __LINE__);
    for (size_t place = 0; place < NAME; place++) {
        memcpy(spoiled, part, sizeof part);
        spoiled[place] ^= 32;
        is(0, (uint32_t)send_raw(spoiled, sizeof part), __LINE__);
    }
    memcpy(spoiled, part, sizeof part);
    is(0, (uint32_t)send_raw(spoiled, sizeof part + 1), __LINE__); /* a byte more than its count */
    spoiled[9] = 2;
    is(0, (uint32_t)send_raw(spoiled, sizeof part), __LINE__); /* a word less */
    is(sizeof part + NAME + 2, (uint32_t)other.dropped, __LINE__);
    is(16, (uint32_t)send_raw(part, sizeof part), __LINE__);
}

static void sequences(void)
{
    TAKEN(3);
    DROPPED(3); /* again */
    DROPPED(0xffffffff);
    TAKEN(4);
    DROPPED(1000000); /* a number that is far, */
    TAKEN(1000001);   /* until the next follows it */
    DROPPED(5);
    TAKEN(6); /* and so back */
    TAKEN(6 + AHEAD);
    DROPPED(7); /* an old one */
    TAKEN(7 + AHEAD);
    DROPPED(7 + AHEAD + AHEAD + 1);
    TAKEN(1); /* it begins again */
    DROPPED(1);
    TAKEN(2);
    TAKEN(0); /* and again, with 0 */
    DROPPED(0);
    TAKEN(1), TAKEN(2), TAKEN(3);
    DROPPED(2);
    other.came = 0xfffffffd;
    TAKEN(0xfffffffe), TAKEN(0xffffffff), TAKEN(0), TAKEN(1), TAKEN(2);
}

/* Parts make a message if none is missing, and at most the longest message. */
static void parts(void)
{
    is(0, (uint32_t)send_word(3, READY), __LINE__);
    is(32, (uint32_t)send_word(4, READY | LAST), __LINE__);
    is(0, (uint32_t)send_word(5, READY), __LINE__);
    is(16, (uint32_t)send_word(7, READY | LAST), __LINE__);
    for (uint32_t sequence = 8; sequence < 8 + NCP_LONGEST_MESSAGE; sequence++) is(0, (uint32_t)send_word(sequence, READY), __LINE__);
    is(8 * NCP_LONGEST_MESSAGE, (uint32_t)send_word(8 + NCP_LONGEST_MESSAGE, READY | LAST), __LINE__);
}

/* A message of this many bits has this many bytes, and this last byte. */
static void is_cut(const uint8_t *bytes, size_t len, size_t bits, uint8_t last, int place)
{
    send_part(&one, READY | LAST, bytes, len);
    is((uint32_t)bits, (uint32_t)take_part(&other), place);
    is(last, other.message[(bits + 7) / 8 - 1], place);
}
#define CUT(len, bits, last) is_cut(message, len, bits, last, __LINE__)

/* Padding of words after a text is removed, up to 52 bits, and spare bits are cleared. Other messages have no length. */
static void padding(void)
{
    uint8_t message[18];
    memset(message, 0xff, sizeof message);
    memset(message, 0, 9);
    one.next = other.came + 1;
    message[5] = 8, message[7] = 1;
    CUT(10, 80, 0xff);
    CUT(16, 80, 0xff);
    CUT(18, 144, 0xff); /* 64 bits after the text are no padding */
    CUT(8, 64, 1);      /* no text yet */
    message[5] = 36;
    CUT(14, 108, 0xf0);
    message[5] = 1, message[7] = 4;
    CUT(16, 76, 0xf0); /* 52 bits */
    message[7] = 3;
    CUT(16, 128, 0xff); /* 53 bits */
    message[5] = 0x80, message[6] = 1;
    CUT(16, 128, 0xff); /* less text than its count */
    message[0] = 5, message[5] = 8, message[6] = 0, message[7] = 1;
    CUT(12, 96, 0xff);
    message[0] = 0xf0; /* flags are no type */
    CUT(12, 80, 0xff);
}

/* Whether the numbers of the other end began again. */
static void begins_again(uint32_t came, uint32_t sequence, bool wanted, int place)
{
    other.came = came, other.began_again = false;
    is(16, (uint32_t)send_word(sequence, READY | LAST), place);
    is(wanted, other.began_again, place);
}
#define AGAIN(came, sequence) begins_again(came, sequence, true, __LINE__)
#define ON(came, sequence) begins_again(came, sequence, false, __LINE__)

static void numbers_that_begin_again(void)
{
    AGAIN(1, 0), AGAIN(70, 0), AGAIN(70, 1), AGAIN(0xffff0000, 0);
    ON(0, 1), ON(5, 6), ON(5, 5 + AHEAD), ON(0xffffffff, 0), ON(0xfffffffe, 0), ON(0xffffffff, 1);
    other.has_begun = false;
    ON(70, 0);
}

/* A datagram for which nobody listens is lost, and the next one is not. */
static void nobody_listens(const char *here, const char *there)
{
    struct line early, late;
    attach(&early, here, there);
    send_leader(&early, NOP);
    attach(&late, there, here);
    send_leader(&early, NOP);
    is(32, (uint32_t)take_part(&late), __LINE__);
    is(1, late.came, __LINE__);
    close(early.socket), close(late.socket);
}

/* A datagram from another port is not received on the line. */
static void strangers(const char *elsewhere, const char *there)
{
    struct line stranger;
    const size_t dropped = other.dropped;
    attach(&stranger, elsewhere, there);
    stranger.next = other.came + 1;
    send_leader(&stranger, INTERFACE_RESET);
    is(0, is_there(&other), __LINE__);
    TAKEN(other.came + 1);
    is((uint32_t)dropped, (uint32_t)other.dropped, __LINE__);
    close(stranger.socket);
}

int main(int argc, char **argv)
{
    if (argc != 4) {
        fputs("usage: h316_test HERE THERE ELSEWHERE\n", stderr);
        return 2;
    }
    nobody_listens(argv[1], argv[2]);
    attach(&one, argv[1], argv[2]);
    attach(&other, argv[2], argv[1]);
    begins_with_0();
    other.has_begun = false;
    TAKEN(70000); /* any is the first */
    TAKEN(1);
    other_forms();
    sequences();
    parts();
    padding();
    numbers_that_begin_again();
    strangers(argv[3], argv[2]);
    close(one.socket), close(other.socket);
    return 0;
}
