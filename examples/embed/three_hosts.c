/* Three hosts over a subnet, and a capture of what crosses their interfaces: `three_hosts [FILE]`. Host 3 is dead at first; then
 * bytes of 8 bits and of 36 are sent while every third message is lost; then host 2 resets with a text on the way. */
#include "imp.h"
#include "ncp_capture.h"

enum { HOSTS = 3, ROOM = 4096, BYTES = 60 /* that each connection sends, two at a time */ };

struct way { uint8_t from, to, link; };
struct flow { uint8_t from, to; uint32_t odd, even; uint8_t size; unsigned given, taken; };

static struct ncp_host hosts[HOSTS + 1]; /* by their numbers */
static struct ncp_subnet subnet;
static FILE *capture;
static bool is_dead[HOSTS + 1], loses;

static void bring(uint8_t at, const uint8_t *bytes, size_t bits)
{
    if (!ncp_capture_message(capture, NCP_FROM_IMP, at, bytes, bits)) exit(2);
    hand(&hosts[at], bytes, NCP_LONGEST_MESSAGE, bits);
}

/* The next message of a host goes into the subnet, if there is one: on which way. */
static bool take_out(uint8_t from, struct way *it)
{
    uint8_t bytes[NCP_LONGEST_MESSAGE];
    size_t bits;
    if (ncp_next_output(&hosts[from], bytes, sizeof bytes, &bits) != NCP_DONE) return false;
    if (!ncp_capture_message(capture, NCP_TO_IMP, from, bytes, bits)) exit(2);
    want(NCP_DONE, ncp_subnet_accept(&subnet, from, bytes, sizeof bytes, bits), "accept");
    it->from = from, it->to = bytes[1], it->link = bytes[2];
    return true;
}

/* The fates of a message: it is delivered, is lost, or its destination is dead; and its sender is answered. */
static void settle_one(const struct way *it)
{
    static unsigned seen;
    uint8_t bytes[NCP_LONGEST_MESSAGE];
    size_t bits;
    if (is_dead[it->to]) ncp_subnet_dead(&subnet, it->from, it->to, it->link);
    else if (loses && ++seen % 3 == 0) ncp_subnet_lose(&subnet, it->from, it->to, it->link);
    else if (ncp_subnet_deliver(&subnet, it->from, it->to, it->link, bytes, sizeof bytes, &bits) == NCP_DONE) bring(it->to, bytes, bits);
    want(NCP_DONE, ncp_subnet_answer(&subnet, it->from, it->to, it->link, bytes, sizeof bytes, &bits), "answer");
    bring(it->from, bytes, bits);
}

static void settle(const char *when)
{
    struct way it;
    for (uint8_t from = 1; from <= HOSTS; from++)
        if (take_out(from, &it)) settle_one(&it), from = 0;
    if (when != NULL) printf("%s: 1-2 %d, 1-3 %d, 2-3 %d\n", when, ncp_is_up(&hosts[1], 2), ncp_is_up(&hosts[1], 3), ncp_is_up(&hosts[2], 3));
}

static void begin(const struct flow *it)
{
    want(NCP_DONE, ncp_ask_receive(&hosts[it->to], it->from, it->even, it->odd, ROOM), "ask_receive");
    want(NCP_DONE, ncp_ask_send(&hosts[it->from], it->to, it->odd, it->even, it->size, ROOM), "ask_send");
    settle(NULL);
    want(NCP_DONE, ncp_allocate(&hosts[it->to], it->from, it->even, it->odd, 4, 8U * it->size), "allocate");
}

/* Gives two equal bytes on a connection, takes what is there, and allows as much again. */
static void step(struct flow *it)
{
    uint8_t text[NCP_LONGEST_MESSAGE];
    size_t bits = 0;
    memset(text, (int)it->given, it->size / 4U);
    if (it->given < BYTES && ncp_give(&hosts[it->from], it->to, it->odd, it->even, text, sizeof text, 2U * it->size) == NCP_DONE) it->given += 2;
    want(NCP_DONE, ncp_take(&hosts[it->to], it->from, it->even, it->odd, 2, text, sizeof text, &bits), "take");
    if (bits == 0) return;
    for (size_t place = 0; place < it->size / 4U; place++) want(it->taken, text[place], "a byte");
    it->taken += 2;
    want(NCP_DONE, ncp_allocate(&hosts[it->to], it->from, it->even, it->odd, 1, (uint32_t)bits), "allocate");
}

int main(int argc, char **argv)
{
    struct flow one = {1, 2, 3, 2, 8, 0, 0}, other = {3, 2, 5, 4, 36, 0, 0};
    struct way late;
    const uint8_t numbers[] = {1, 2, 3, 1, 2}; /* after each host its peers */
    capture = argc > 1 ? fopen(argv[1], "wb") : tmpfile();
    if (capture == NULL || !ncp_capture_begin(capture)) return 2;
    want(NCP_DONE, ncp_subnet_new(&subnet, numbers, HOSTS), "subnet_new");
    for (uint8_t me = 1; me <= HOSTS; me++) {
        want(NCP_DONE, ncp_new(&hosts[me], me, numbers + me, HOSTS - 1), "new");
        for (uint8_t peer = me; peer++ < HOSTS;) want(NCP_DONE, ncp_reset(&hosts[me], peer), "reset");
    }
    is_dead[3] = true, settle("up while 3 is dead");
    is_dead[3] = false, ncp_wake(&hosts[1], 3), ncp_wake(&hosts[2], 3), settle("up after the wake");
    begin(&one), begin(&other), loses = true;
    while (one.taken < BYTES || other.taken < BYTES) step(&one), step(&other), settle(NULL);
    loses = false, one.given = 0, step(&one), take_out(1, &late), want(NCP_DONE, ncp_reset(&hosts[2], 1), "reset");
    settle("up with a text on the way");
    settle_one(&late), settle("up once it is answered");
    printf("open: 1 to 2 %d, 3 to 2 %d\n", ncp_is_open(&hosts[1], 2, 3, 2), ncp_is_open(&hosts[3], 2, 5, 4));
    ncp_subnet_free(&subnet);
    for (uint8_t me = 1; me <= HOSTS; me++) ncp_free(&hosts[me]);
    return fclose(capture) == 0 ? 0 : 2;
}
