/* An IMP for the host of h316_host.c, with sixty hosts: `h316_host_test HERE THERE ELSEWHERE PROCESS`, the ports of the line at this end and at
 * that of the host, another port, and the process of the host, which is `h316_host 70 THERE HERE 2 1 2 .. 60`. The expected messages are
 * written by hand. The host's output is in h316_host.txt; this prints nothing if all is correct. */
#define _POSIX_C_SOURCE 200809L
#include "h316.h"
#include <signal.h>
#include <time.h>

enum { PEERS = 60, NINTH = 9, SIXTIETH = 60, CONNECTIONS = 64 /* with a peer */, LONGEST_DIGITS = 3000 };

static struct line line;

static void fail(const char *what, int at)
{
    printf("line %d: %s\n", at, what);
    exit(1);
}

static int digit(char it) { return it <= '9' ? it - '0' : it - 'a' + 10; }

/* The bytes that are written as digits, with blanks between some. */
static size_t bytes_of(const char *digits, uint8_t *bytes)
{
    size_t len = 0;
    for (; *digits != '\0'; digits++) {
        if (*digits == ' ') continue;
        bytes[len++] = (uint8_t)(16 * digit(digits[0]) + digit(digits[1]));
        digits++;
    }
    return len;
}

static void post(const char *digits)
{
    uint8_t message[NCP_LONGEST_MESSAGE];
    const size_t len = bytes_of(digits, message);
    send_message(&line, message, 8 * len);
}

/* Takes datagrams until the host is ready, or is not. */
static void until_ready(bool wanted)
{
    const time_t begun = time(NULL);
    while (line.is_ready != wanted) {
        take_part(&line);
        if (time(NULL) - begun > PATIENCE) fail(wanted ? "the host is not ready" : "the host does not end", __LINE__);
    }
}

/* The bits of the next message of the host that is no NOP. */
static size_t next_message(int at)
{
    const time_t begun = time(NULL);
    while (time(NULL) - begun < PATIENCE) {
        const size_t bits = take_part(&line);
        if (bits > 0 && line.message[0] != NOP) return bits;
    }
    fail("nothing came", at);
    return 0;
}

/* The next message is this one, and is not answered yet. */
static void is_message(const char *digits, int at)
{
    uint8_t wanted[NCP_LONGEST_MESSAGE];
    const size_t len = bytes_of(digits, wanted), bits = next_message(at);
    if (bits == 8 * len && memcmp(wanted, line.message, len) == 0) return;
    say("this came:", line.message, bits);
    fail(digits, at);
}

static void answer(uint8_t type)
{
    uint8_t leader[LEADER];
    answer_of(type, line.message, leader);
    send_message(&line, leader, 8 * sizeof leader);
}

#define IS(digits) is_message(digits, __LINE__), answer(RFNM)
#define IS_UNANSWERED(digits) is_message(digits, __LINE__)
/* An echo of a byte: the host's next message is its answer, so it had nothing else to send. */
#define NOTHING_ELSE() post("00 09 00 00 00 08 0002 00 09 41"), IS("00 09 00 00 00 08 0002 00 0a 41")

/* The host resets with each of its sixty peers. The ninth and the sixtieth answer; the others are dead. */
static void comes_up(void)
{
    bool was_reset[PEERS + 1] = {false};
    until_ready(true);
    send_nops(&line);
    for (int count = 0; count < PEERS; count++) {
        uint8_t rst[] = {REGULAR, 0, 0, 0, 0, 8, 0, 1, 0, 12};
        if (next_message(__LINE__) != 8 * sizeof rst) fail("no RST", __LINE__);
        rst[1] = line.message[1];
        if (rst[1] < 1 || rst[1] > PEERS || was_reset[rst[1]] || memcmp(rst, line.message, sizeof rst) != 0) fail("no RST", __LINE__);
        was_reset[rst[1]] = true;
        answer(rst[1] == NINTH || rst[1] == SIXTIETH ? RFNM : DEAD);
    }
    post("00 09 00 00 00 08 0001 00 0d");
    post("00 3c 00 00 00 08 0001 00 0d");
    NOTHING_ELSE();
}

/* Datagrams of a stranger, of another form, and messages of no peer, or of no use. */
static void strangers(const char *elsewhere, const char *there)
{
    struct line stranger;
    const uint32_t next = line.next;
    attach(&stranger, elsewhere, there);
    stranger.next = next;
    send_leader(&stranger, INTERFACE_RESET);
    close(stranger.socket);
    if (send(line.socket, "H316\r\n\x1b[2J", 10, 0) < 0 || send(line.socket, "", 0, 0) < 0) give_up("send");
    post("00 c8 00 00 00 08 0001 00 0c"); /* an RST of host 200 */
    post("0a 00");                        /* half a leader */
    post("0f ff ff ff"), post("02 00 00 00"), post("01 00 00 00");
    post("05 09 00 00");                  /* an answer to nothing */
    line.next = 0xffff0000; /* one that is far, and back */
    post("0a 00 00 00");
    line.next = next + 20;
    NOTHING_ELSE();
}

/* The ninth peer sends a text from socket 3, which is printed, and then more, which is returned to its socket 2. */
static void ninth(void)
{
    post("00 09 00 00 00 08 000a 00 02 00000003 00000002 08");                          /* STR */
    IS("00 09 00 00 00 08 0012 00 01 00000002 00000003 02 04 02 0008 00002000");       /* RTS on link 2, ALL of 8 texts and 8,192 bits */
    post("00 09 02 00 00 08 0009 00 6869 1b5b324a ff 2520");                            /* text: hi, what clears a screen, and two signs */
    NOTHING_ELSE();
    post("00 09 00 00 00 08 000a 00 01 00000002 00000003 2d"); /* RTS on link 45 */
    IS("00 09 00 00 00 08 000a 00 02 00000003 00000002 08");   /* STR */
    post("00 09 00 00 00 08 0008 00 04 2d 0008 00000100");     /* ALL of 8 texts and 256 bits */
    post("00 09 02 00 00 08 0004 00 6563686f");
    IS("00 09 2d 00 00 08 0004 00 6563686f");
}

/* The IMP is restarted while a text is in flight: shown by its numbers only, by type 10, both at once; and reports an error in it. */
static void restarts(void)
{
    post("00 09 02 00 00 08 0005 00 6f6e63 652e");
    IS_UNANSWERED("00 09 2d 00 00 08 0005 00 6f6e63652e");
    line.next = 0;
    send_leader(&line, NOP);
    IS_UNANSWERED("00 09 2d 00 00 08 0005 00 6f6e63652e");
    send_leader(&line, INTERFACE_RESET);
    IS_UNANSWERED("00 09 2d 00 00 08 0005 00 6f6e63652e");
    post("08 09 2d 00"); /* an error in this message */
    IS("00 09 2d 00 00 08 0005 00 6f6e63652e");
    line.next = 1;
    send_leader(&line, INTERFACE_RESET);
    NOTHING_ELSE();
    send_part(&line, LAST, NULL, 0); /* the IMP is not ready, and then is */
    send_part(&line, READY, NULL, 0);
    NOTHING_ELSE();
}

/* Half of what was allowed is used up, four of eight texts, of 72 + 32 + 40 + 8 bits: this much is allowed again. */
static void allows_more(void)
{
    post("00 09 02 00 00 08 0001 00 21");
    IS("00 09 00 00 00 08 0008 00 04 02 0004 00000098");
    IS("00 09 2d 00 00 08 0001 00 21");
}

/* Adds a byte so often to a message in digits. */
static void add(char *digits, const char *byte, int count)
{
    while (count-- > 0) strcat(digits, byte);
}

/* Text without room on the way back stays at its sender's connection: of 256 bits that may go back 80 did, so 22 bytes of 1,000 go. Of
 * 50 more 46 have room then, of 8,192 bits in all. Once more may go back, 991 bytes go, as many as a message takes, and the rest. */
static void waits_for_room(void)
{
    char digits[LONGEST_DIGITS] = "00 09 02 00 00 08 03e8 00 ";
    add(digits, "61", 1000);
    post(digits);
    IS("00 09 00 00 00 08 0008 00 04 02 0001 00001f40");
    IS("00 09 2d 00 00 08 0016 00 61616161616161616161616161616161616161616161");
    strcpy(digits, "00 09 02 00 00 08 0032 00 ");
    add(digits, "62", 50);
    post(digits);
    NOTHING_ELSE();
    for (int count = 0; count < 3; count++) post("00 09 02 00 00 08 0001 00 63");
    IS("00 09 00 00 00 08 0008 00 04 02 0004 00000170"); /* 400 + 24 bits arrived, and 7 bytes are queued */
    post("00 09 00 00 00 08 0008 00 04 2d 0008 00003000");
    strcpy(digits, "00 09 2d 00 00 08 03df 00 ");
    add(digits, "61", 978), add(digits, "62", 13);
    IS(digits);
    strcpy(digits, "00 09 2d 00 00 08 0028 00 ");
    add(digits, "62", 37), add(digits, "63", 3);
    IS(digits);
}

/* The ninth peer closes while text waits: 12,288 - 7,928 - 320 bits may go back, so 505 of 1,000 bytes go. Of 1,000 more 529 have room, and 471
 * wait until nothing goes back any more. The connection ends with them, and in the same message another is asked for. */
static void closes_while_text_waits(void)
{
    char digits[LONGEST_DIGITS] = "00 09 02 00 00 08 03e8 00 ";
    add(digits, "64", 1000);
    post(digits);
    IS("00 09 00 00 00 08 0008 00 04 02 0001 00001f78"); /* 8,056 bits arrived since */
    strcpy(digits, "00 09 2d 00 00 08 01f9 00 ");
    add(digits, "64", 505);
    IS(digits);
    strcpy(digits, "00 09 02 00 00 08 03e8 00 ");
    add(digits, "65", 1000);
    post(digits);
    IS("00 09 00 00 00 08 0008 00 04 02 0001 00001088"); /* 8,000 bits arrived, and 3,768 are queued */
    post("00 09 00 00 00 08 0009 00 03 00000003 00000002");
    post("00 09 00 00 00 08 0013 00 03 00000002 00000003 02 00000005 00000002 08");
    IS("00 09 00 00 00 08 0024 00 03 00000003 00000002 03 00000002 00000003 01 00000002 00000005 02 04 02 0008 00002000");
}

/* The sixtieth peer sends a byte of 36 bits, with padding after it. Then it closes, and so does the host. */
static void sixtieth(void)
{
    post("00 3c 00 00 00 08 000a 00 02 00000003 00000002 24");
    IS("00 3c 00 00 00 08 0012 00 01 00000002 00000003 02 04 02 0008 00002000");
    post("00 3c 02 00 00 24 0001 00 1234 5678 9f ffff ffffff");
    post("00 3c 00 00 00 08 0009 00 03 00000003 00000002");
    IS("00 3c 00 00 00 08 0009 00 03 00000002 00000003");
}

/* A socket on which nobody listens, and the 65th connection, are refused. */
static void refuses(void)
{
    char digits[LONGEST_DIGITS];
    post("00 3c 00 00 00 08 000a 00 02 00000003 00000004 08");
    IS("00 3c 00 00 00 08 0009 00 03 00000004 00000003");
    post("00 3c 00 00 00 08 000a 00 01 00000002 00000005 02");
    IS("00 3c 00 00 00 08 0009 00 03 00000005 00000002");
    for (unsigned each = 1; each <= CONNECTIONS; each++) {
        sprintf(digits, "00 3c 00 00 00 08 000a 00 02 %08x 00000002 08", 2 * each + 1);
        post(digits);
        sprintf(digits, "00 3c 00 00 00 08 0012 00 01 00000002 %08x %02x 04 %02x 0008 00002000", 2 * each + 1, each + 1, each + 1);
        IS(digits);
    }
    post("00 3c 00 00 00 08 000a 00 02 00001001 00000002 08");
    IS("00 3c 00 00 00 08 0009 00 03 00000002 00001001");
    NOTHING_ELSE();
}

/* A peer that restarts, and one that was dead and sends again: messages held for it are sent. */
static void peers_begin_again(void)
{
    post("00 3c 00 00 00 08 0001 00 0c");
    IS("00 3c 00 00 00 08 0001 00 0d");
    post("00 08 00 00 00 08 0001 00 0c");
    IS("00 08 00 00 00 08 0001 00 0c");
    IS("00 08 00 00 00 08 0001 00 0d");
    post("00 08 00 00 00 08 0001 00 0d");
    NOTHING_ELSE();
}

int main(int argc, char **argv)
{
    if (argc != 5) {
        fputs("usage: h316_host_test HERE THERE ELSEWHERE PROCESS\n", stderr);
        return 2;
    }
    attach(&line, argv[1], argv[2]);
    comes_up();
    strangers(argv[3], argv[2]);
    ninth();
    restarts();
    allows_more();
    waits_for_room();
    closes_while_text_waits();
    sixtieth();
    refuses();
    peers_begin_again();
    kill((pid_t)number_in(argv[4], 2, INT32_MAX), SIGTERM);
    until_ready(false);
    return 0;
}
