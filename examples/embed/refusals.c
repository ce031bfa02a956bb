/* Null handles and null pointers, short buffers, names, commands, arrivals, the maximal number of peers, and allocation failures
 * at each place: the result, and that nothing is changed. It prints nothing if all is correct. To be linked with
 * -Wl,--wrap=malloc. */
#include "ncp.h"
#include <stdio.h>
#include <stdlib.h>
#include <string.h>

enum { ME = 1, PEER = 2, ODD = 3, EVEN = 2, MARK = 0xee };

static const uint8_t peers[] = {PEER};
static uint8_t out[NCP_LONGEST_MESSAGE];
static size_t size;
static long left = -1; /* how many blocks may still be had; below 0 any number */

#ifdef __cplusplus
extern "C" {
#endif
void *__real_malloc(size_t bytes);
void *__wrap_malloc(size_t bytes);
#ifdef __cplusplus
}
#endif

void *__wrap_malloc(size_t bytes)
{
    if (left == 0) return NULL;
    if (left > 0) left--;
    return __real_malloc(bytes);
}

static void is(uint32_t wanted, uint32_t answered, int line)
{
    if (wanted == answered) return;
    printf("line %d: %u in place of %u\n", line, (unsigned)answered, (unsigned)wanted);
    exit(1);
}
#define IS(wanted, answered) is(wanted, answered, __LINE__)

static void is_untouched(int line)
{
    for (size_t place = 0; place < sizeof out; place++) is(MARK, out[place], line);
    is(MARK, (uint32_t)size, line);
}

/* Of no host, and of a null handle. */
static void no_host(struct ncp_host *host)
{
    struct ncp_arrived arrived;
    struct ncp_connection state;
    struct ncp_changes changes;
    struct ncp_flags flags;
    struct ncp_peer_counts counted;
    struct ncp_ignored_counts discarded;
    struct ncp_err_command noted;
    struct ncp_host copy = NCP_EMPTY;
    uint32_t local, remote;
    ncp_free(host);
    IS(NCP_NO_HOST, ncp_copy(host, &copy));
    IS(NCP_NO_HOST, ncp_save(host, out, sizeof out, &size));
    IS(NCP_NO_HOST, ncp_load(NULL, out, sizeof out));
    IS(NCP_NO_HOST, ncp_receive(host, out, sizeof out, 32, &arrived));
    IS(NCP_NO_HOST, ncp_next_output(host, out, sizeof out, &size));
    IS(NCP_NO_HOST, ncp_reset(host, PEER));
    IS(NCP_NO_HOST, ncp_ask_send(host, PEER, ODD, EVEN, 8, 64));
    IS(NCP_NO_HOST, ncp_ask_receive(host, PEER, EVEN, ODD, 64));
    IS(NCP_NO_HOST, ncp_give(host, PEER, ODD, EVEN, out, sizeof out, 8));
    IS(NCP_NO_HOST, ncp_take(host, PEER, EVEN, ODD, 1, out, sizeof out, &size));
    IS(NCP_NO_HOST, ncp_allocate(host, PEER, EVEN, ODD, 1, 8));
    IS(NCP_NO_HOST, ncp_call_back(host, PEER, EVEN, ODD, 1, 1));
    IS(NCP_NO_HOST, ncp_interrupt(host, PEER, EVEN, ODD));
    IS(NCP_NO_HOST, ncp_close(host, PEER, EVEN, ODD));
    IS(NCP_NO_HOST, ncp_echo(host, PEER, 65));
    IS(NCP_NO_HOST, ncp_wake(host, PEER));
    IS(NCP_NO_HOST, ncp_restart(host, PEER));
    IS(NCP_NO_HOST, ncp_state(host, PEER, EVEN, ODD, &state));
    IS(NCP_NO_HOST, ncp_changes(host, PEER, EVEN, ODD, &state, &changes));
    IS(NCP_NO_HOST, ncp_connection_at(host, PEER, 0, &local, &remote, &state));
    IS(NCP_NO_HOST, ncp_room(host, PEER, EVEN, ODD, &local));
    IS(NCP_NO_HOST, ncp_pair_on(host, PEER, true, 2, &local, &remote));
    IS(NCP_NO_HOST, ncp_phase(host, PEER, &flags));
    IS(NCP_NO_HOST, ncp_echoed(host, PEER, out));
    IS(NCP_NO_HOST, ncp_error(host, PEER, 0, &noted));
    IS(NCP_NO_HOST, ncp_counts(host, PEER, &counted));
    IS(NCP_NO_HOST, ncp_ignored(host, &discarded));
    IS(NCP_NO_HOST, ncp_waiting(host, PEER, 0, out, sizeof out, &size));
    IS(NCP_NO_HOST, ncp_kept(host, PEER, 0, out, sizeof out, &size));
    IS(NCP_NO_HOST, ncp_unacknowledged(host, PEER, &local));
    IS(false, ncp_is_made(host));
    IS(false, ncp_is_up(host, PEER));
    IS(false, ncp_is_held(host, PEER, 0));
    IS(false, ncp_is_open(host, PEER, EVEN, ODD));
    is_untouched(__LINE__);
}

/* Of no subnet, and of a null handle. */
static void no_subnet(struct ncp_subnet *subnet)
{
    ncp_subnet_free(subnet);
    IS(NCP_NO_SUBNET, ncp_subnet_accept(subnet, ME, out, sizeof out, 32));
    IS(NCP_NO_SUBNET, ncp_subnet_deliver(subnet, ME, PEER, 0, out, sizeof out, &size));
    IS(NCP_NO_SUBNET, ncp_subnet_lose(subnet, ME, PEER, 0));
    IS(NCP_NO_SUBNET, ncp_subnet_dead(subnet, ME, PEER, 0));
    IS(NCP_NO_SUBNET, ncp_subnet_answer(subnet, ME, PEER, 0, out, sizeof out, &size));
    is_untouched(__LINE__);
}

/* A message that is in transit stays there until a call that is not refused takes it. */
static void subnets(void)
{
    static const uint8_t two[] = {ME, PEER}, rst[] = {0, PEER, 0, 0, 0, 8, 0, 1, 0, 12}, came[] = {0, ME, 0, 0, 0, 8, 0, 1, 0, 12},
        rfnm[] = {5, PEER, 0, 0}, incomplete[] = {9, PEER, 0, 0}, dead[] = {7, PEER, 0, 0}, far[] = {0, 3, 0, 0};
    struct ncp_subnet subnet = NCP_EMPTY;
    no_subnet(NULL);
    no_subnet(&subnet);
    IS(NCP_NO_SUBNET, ncp_subnet_new(NULL, two, 2));
    IS(NCP_NO_POINTER, ncp_subnet_new(&subnet, NULL, 2));
    left = 0;
    IS(NCP_NEW_OUT_OF_MEMORY, ncp_subnet_new(&subnet, two, 2));
    left = -1;
    no_subnet(&subnet);
    IS(NCP_DONE, ncp_subnet_new(&subnet, two, 2));
    IS(NCP_NO_POINTER, ncp_subnet_accept(&subnet, ME, NULL, 4, 32));
    IS(NCP_TOO_LONG, ncp_subnet_accept(&subnet, ME, out, sizeof out, 8193));
    IS(NCP_SHORT_BYTES, ncp_subnet_accept(&subnet, ME, rst, 9, 80));
    IS(NCP_SPARE_NOT_ZERO, ncp_subnet_accept(&subnet, ME, rst, 10, 77));
    IS(NCP_SUBNET_NOT_REGULAR, ncp_subnet_accept(&subnet, ME, rst, 10, 24));
    IS(NCP_SUBNET_NOT_REGULAR, ncp_subnet_accept(&subnet, ME, rfnm, 4, 32));
    IS(NCP_SUBNET_NO_HOST, ncp_subnet_accept(&subnet, ME, far, 4, 32));
    IS(NCP_SUBNET_NO_HOST, ncp_subnet_accept(&subnet, 3, rst, 10, 80));
    IS(NCP_SUBNET_NO_HOST, ncp_subnet_accept(&subnet, PEER, rst, 10, 80));
    IS(NCP_NOTHING, ncp_subnet_deliver(&subnet, ME, PEER, 0, out, sizeof out, &size));
    IS(NCP_DONE, ncp_subnet_accept(&subnet, ME, rst, 10, 80));
    IS(NCP_SUBNET_OCCUPIED, ncp_subnet_accept(&subnet, ME, rst, 10, 80));
    IS(NCP_NO_POINTER, ncp_subnet_deliver(&subnet, ME, PEER, 0, NULL, sizeof out, &size));
    IS(NCP_NO_POINTER, ncp_subnet_deliver(&subnet, ME, PEER, 0, out, sizeof out, NULL));
    IS(NCP_SHORT_BUFFER, ncp_subnet_deliver(&subnet, ME, PEER, 0, out, NCP_LONGEST_MESSAGE - 1, &size));
    IS(NCP_NOTHING, ncp_subnet_deliver(&subnet, ME, PEER, 1, out, sizeof out, &size));
    IS(NCP_NOTHING, ncp_subnet_deliver(&subnet, PEER, ME, 0, out, sizeof out, &size));
    IS(NCP_NOTHING, ncp_subnet_answer(&subnet, ME, PEER, 0, out, sizeof out, &size));
    is_untouched(__LINE__);
    IS(NCP_DONE, ncp_subnet_deliver(&subnet, ME, PEER, 0, out, sizeof out, &size));
    IS(80, (uint32_t)size);
    IS(0, (uint32_t)memcmp(came, out, sizeof came));
    IS(NCP_NOTHING, ncp_subnet_lose(&subnet, ME, PEER, 0));
    IS(NCP_NOTHING, ncp_subnet_dead(&subnet, ME, PEER, 0));
    IS(NCP_NO_POINTER, ncp_subnet_answer(&subnet, ME, PEER, 0, NULL, sizeof out, &size));
    IS(NCP_NO_POINTER, ncp_subnet_answer(&subnet, ME, PEER, 0, out, sizeof out, NULL));
    IS(NCP_SHORT_BUFFER, ncp_subnet_answer(&subnet, ME, PEER, 0, out, NCP_LONGEST_MESSAGE - 1, &size));
    IS(NCP_DONE, ncp_subnet_answer(&subnet, ME, PEER, 0, out, sizeof out, &size));
    IS(32, (uint32_t)size);
    IS(0, (uint32_t)memcmp(rfnm, out, sizeof rfnm));
    IS(NCP_NOTHING, ncp_subnet_answer(&subnet, ME, PEER, 0, out, sizeof out, &size));
    IS(NCP_DONE, ncp_subnet_accept(&subnet, ME, rst, 10, 80));
    IS(NCP_DONE, ncp_subnet_lose(&subnet, ME, PEER, 0));
    IS(NCP_DONE, ncp_subnet_answer(&subnet, ME, PEER, 0, out, sizeof out, &size));
    IS(0, (uint32_t)memcmp(incomplete, out, sizeof incomplete));
    IS(NCP_DONE, ncp_subnet_accept(&subnet, ME, rst, 10, 80));
    IS(NCP_DONE, ncp_subnet_dead(&subnet, ME, PEER, 0));
    IS(NCP_DONE, ncp_subnet_answer(&subnet, ME, PEER, 0, out, sizeof out, &size));
    IS(0, (uint32_t)memcmp(dead, out, sizeof dead));
    IS(NCP_DONE, ncp_subnet_new(&subnet, two, 0));
    IS(NCP_SUBNET_NO_HOST, ncp_subnet_accept(&subnet, ME, rst, 10, 80));
    ncp_subnet_free(&subnet);
    IS(NCP_NO_SUBNET, ncp_subnet_lose(&subnet, ME, PEER, 0));
}

/* A host with something to send, so that a call that is not refused would take it. */
static void no_pointer(struct ncp_host *host)
{
    struct ncp_arrived arrived;
    struct ncp_connection state;
    struct ncp_changes changes;
    uint32_t local, remote;
    char *text = (char *)out;
    IS(NCP_NO_POINTER, ncp_new(host, ME, NULL, 1));
    IS(NCP_NO_POINTER, ncp_copy(host, NULL));
    IS(NCP_NO_POINTER, ncp_save(host, NULL, 1, &size));
    IS(NCP_NO_POINTER, ncp_save(host, out, sizeof out, NULL));
    IS(NCP_NO_POINTER, ncp_load(host, NULL, 0));
    IS(NCP_NO_POINTER, ncp_receive(host, NULL, 4, 32, &arrived));
    IS(NCP_NO_POINTER, ncp_receive(host, out, sizeof out, 32, NULL));
    IS(NCP_NO_POINTER, ncp_next_output(host, NULL, sizeof out, &size));
    IS(NCP_NO_POINTER, ncp_next_output(host, out, sizeof out, NULL));
    IS(NCP_NO_POINTER, ncp_give(host, PEER, ODD, EVEN, NULL, 1, 8));
    IS(NCP_NO_POINTER, ncp_take(host, PEER, EVEN, ODD, 1, NULL, sizeof out, &size));
    IS(NCP_NO_POINTER, ncp_take(host, PEER, EVEN, ODD, 1, out, sizeof out, NULL));
    IS(NCP_NO_POINTER, ncp_state(host, PEER, EVEN, ODD, NULL));
    IS(NCP_NO_POINTER, ncp_changes(host, PEER, EVEN, ODD, NULL, &changes));
    IS(NCP_NO_POINTER, ncp_changes(host, PEER, EVEN, ODD, &state, NULL));
    IS(NCP_NO_POINTER, ncp_connection_at(host, PEER, 0, NULL, &remote, &state));
    IS(NCP_NO_POINTER, ncp_connection_at(host, PEER, 0, &local, NULL, &state));
    IS(NCP_NO_POINTER, ncp_connection_at(host, PEER, 0, &local, &remote, NULL));
    IS(NCP_NO_POINTER, ncp_room(host, PEER, EVEN, ODD, NULL));
    IS(NCP_NO_POINTER, ncp_pair_on(host, PEER, true, 2, NULL, &remote));
    IS(NCP_NO_POINTER, ncp_pair_on(host, PEER, true, 2, &local, NULL));
    IS(NCP_NO_POINTER, ncp_phase(host, PEER, NULL));
    IS(NCP_NO_POINTER, ncp_echoed(host, PEER, NULL));
    IS(NCP_NO_POINTER, ncp_error(host, PEER, 0, NULL));
    IS(NCP_NO_POINTER, ncp_counts(host, PEER, NULL));
    IS(NCP_NO_POINTER, ncp_ignored(host, NULL));
    IS(NCP_NO_POINTER, ncp_waiting(host, PEER, 0, NULL, sizeof out, &size));
    IS(NCP_NO_POINTER, ncp_waiting(host, PEER, 0, out, sizeof out, NULL));
    IS(NCP_NO_POINTER, ncp_kept(host, PEER, 0, NULL, sizeof out, &size));
    IS(NCP_NO_POINTER, ncp_kept(host, PEER, 0, out, sizeof out, NULL));
    IS(NCP_NO_POINTER, ncp_unacknowledged(host, PEER, NULL));
    IS(NCP_NO_POINTER, ncp_command(NULL, 10, 80, 0, out, sizeof out, &size));
    IS(NCP_NO_POINTER, ncp_command(out, 10, 80, 0, NULL, sizeof out, &size));
    IS(NCP_NO_POINTER, ncp_command(out, 10, 80, 0, out, sizeof out, NULL));
    IS(NCP_NO_POINTER, ncp_name(0, NULL, 12, &size));
    IS(NCP_NO_POINTER, ncp_name(0, text, 12, NULL));
    is_untouched(__LINE__);
}

static void short_buffers(struct ncp_host *host)
{
    const uint8_t message[] = {0, PEER, 0, 0, 0, 8, 0, 3, 0, 12, 9, 65}; /* RST and ECO */
    struct ncp_arrived arrived = {MARK, MARK, MARK, MARK, MARK, MARK, MARK, MARK, MARK};
    IS(NCP_SHORT_BUFFER, ncp_next_output(host, out, NCP_LONGEST_MESSAGE - 1, &size));
    IS(NCP_SHORT_BUFFER, ncp_take(host, PEER, EVEN, ODD, 1, out, 0, &size));
    IS(NCP_SHORT_BUFFER, ncp_kept(host, PEER, 0, out, NCP_LONGEST_MESSAGE - 1, &size));
    IS(NCP_SHORT_BUFFER, ncp_waiting(host, PEER, 0, out, NCP_LONGEST_COMMAND - 1, &size));
    IS(NCP_SHORT_BUFFER, ncp_command(message, sizeof message, 8 * sizeof message, 0, out, NCP_LONGEST_COMMAND - 1, &size));
    IS(NCP_SHORT_BYTES, ncp_command(message, sizeof message, 8 * sizeof message + 1, 0, out, 0, &size));
    IS(NCP_NOTHING, ncp_command(message, sizeof message, 8 * sizeof message, 2, out, sizeof out, &size));
    IS(NCP_NOTHING, ncp_command(message, sizeof message, 72, 0, out, sizeof out, &size));
    IS(NCP_SHORT_BUFFER, ncp_name(NCP_NO_ENTRY, (char *)out, 6, &size));
    IS(NCP_NOTHING, ncp_name(18, (char *)out, sizeof out, &size));
    IS(NCP_TOO_LONG, ncp_receive(host, out, sizeof out, 8193, &arrived));
    IS(NCP_SHORT_BYTES, ncp_receive(host, out, 4, 33, &arrived));
    IS(NCP_SPARE_NOT_ZERO, ncp_receive(host, out, 4, 30, &arrived));
    is_untouched(__LINE__);
    IS(MARK, arrived.what);
    IS(MARK, arrived.peer);
}

/* Each number has the name that the library writes for it, as a string too, and no two results share a number. */
static void names(void)
{
    for (uint32_t code = 0; code < 256; code++) {
        char name[NCP_LONGEST_NAME + 1] = {0};
        size_t bytes = 0;
        uint32_t answered = ncp_name(code, name, NCP_LONGEST_NAME, &bytes);
        IS(*ncp_word(code) == 0 ? NCP_NOTHING : NCP_DONE, answered);
        IS(0, (uint32_t)strcmp(name, ncp_word(code)));
        IS((uint32_t)strlen(name), (uint32_t)bytes);
    }
    IS(0, (uint32_t)strcmp("BadPeers", ncp_word(NCP_NEW_BAD_PEERS)));
    IS(0, (uint32_t)strcmp("UnknownPeer", ncp_word(NCP_UNKNOWN_PEER)));
    IS(0, (uint32_t)strcmp(NCP_VERSION, ncp_version()));
}

/* The library returns the sizes of its structs, and then 0. */
#define SIZE_IS(name) IS(sizeof(struct name), *at++);

static void sizes(void)
{
    const uint32_t *at = ncp_sizes();
    NCP_STRUCTS(SIZE_IS)
    IS(0, *at);
}

/* The commands of a message, of no other, and up to one that is none. */
static void commands(void)
{
    uint8_t message[] = {0, PEER, 0, 0, 0, 8, 0, 4, 0, 12, 9, 65, 14}; /* RST, ECO, and an opcode of none */
    const size_t len = sizeof message;
    IS(NCP_DONE, ncp_command(message, len, 8 * len, 0, out, sizeof out, &size));
    IS(1, (uint32_t)size);
    IS(12, out[0]);
    IS(MARK, out[1]);
    IS(NCP_DONE, ncp_command(message, len, 8 * len, 1, out, sizeof out, &size));
    IS(2, (uint32_t)size);
    IS(65, out[1]);
    IS(NCP_NOTHING, ncp_command(message, len, 8 * len, 2, out, sizeof out, &size));
    message[2] = 2;
    IS(NCP_NOTHING, ncp_command(message, len, 8 * len, 0, out, sizeof out, &size));
    message[2] = 0, message[0] = 4;
    IS(NCP_NOTHING, ncp_command(message, len, 8 * len, 0, out, sizeof out, &size));
    message[0] = 0, message[5] = 4;
    IS(NCP_NOTHING, ncp_command(message, len, 8 * len, 0, out, sizeof out, &size));
}

/* An arrival has its peer and its link, and for an answer its type. */
static void arrivals(struct ncp_host *host)
{
    const uint8_t dead[] = {7, PEER, 0, 0}, nop[] = {4, 9, 3, 0}, said[] = {1, 8, 10};
    /* An ERR and an NOP. */
    const uint8_t errors[] = {0, PEER, 0, 0, 0, 8, 0, 13, 0, 11, 3, 0, 0, 0, 0, 0, 0, 0, 0, 0, 0, 0};
    struct ncp_arrived arrived;
    IS(NCP_DONE, ncp_receive(host, dead, sizeof dead, 32, &arrived));
    IS(NCP_ARRIVED_ANSWERED, arrived.what);
    IS(7, arrived.detail);
    IS(PEER, arrived.peer);
    IS(0, arrived.link);
    IS(true, ncp_is_held(host, PEER, 0));
    IS(false, ncp_is_held(host, PEER, 2));
    IS(false, ncp_is_held(host, 9, 0));
    IS(NCP_DONE, ncp_wake(host, PEER));
    IS(false, ncp_is_held(host, PEER, 0));
    IS(NCP_DONE, ncp_receive(host, nop, sizeof nop, 32, &arrived));
    IS(NCP_ARRIVED_OTHER, arrived.what);
    IS(4, arrived.detail);
    IS(9, arrived.peer);
    IS(3, arrived.link);
    IS(NCP_TYPE_NOP, arrived.kind);
    for (size_t place = 0; place < sizeof said; place++) {
        const uint8_t message[] = {said[place], PEER, 2, 0};
        IS(NCP_DONE, ncp_receive(host, message, sizeof message, 32, &arrived));
        IS(NCP_ARRIVED_OTHER, arrived.what);
        IS(said[place], arrived.kind);
        IS(said[place] == NCP_TYPE_INTERFACE_RESET, place == 2);
    }
    IS(NCP_DONE, ncp_receive(host, errors, sizeof errors, 8 * sizeof errors, &arrived));
    IS(NCP_ARRIVED_CONTROL, arrived.what);
    IS(2, arrived.detail);
    IS(1, arrived.errors);
    IS(0, arrived.resets);
    IS(NCP_TYPE_REGULAR, arrived.kind);
    IS(NCP_DONE, ncp_receive(host, nop, sizeof nop, 24, &arrived));
    IS(NCP_ARRIVED_SHORT, arrived.what);
    IS(0, arrived.peer);
    IS(0, arrived.link);
    IS(0, arrived.errors);
    IS(0, arrived.resets);
}

/* The first blocks of memory are had, and the next is not: there is no host then, or no connection. */
static void no_memory(void)
{
    for (long had = 0; had < 64; had++) {
        struct ncp_host host = NCP_EMPTY;
        uint32_t answered;
        left = had;
        answered = ncp_new(&host, ME, peers, 1);
        left = -1;
        if (answered == NCP_DONE) {
            IS(1, had > 0);
            ncp_free(&host);
            return;
        }
        IS(NCP_NEW_OUT_OF_MEMORY, answered);
        IS(NCP_NO_HOST, ncp_reset(&host, PEER));
    }
    IS(0, 1);
}

/* The same of a copy. The host stays what it was, and so does what stood in the place of the copy. */
static void no_copy(struct ncp_host *host)
{
    struct ncp_host copy = NCP_EMPTY;
    IS(NCP_DONE, ncp_copy(host, host));
    for (long had = 0; had < 64; had++) {
        uint32_t answered;
        left = had;
        answered = ncp_copy(host, &copy);
        left = -1;
        if (answered == NCP_DONE) {
            IS(1, had > 0);
            IS(NCP_DONE, ncp_reset(&copy, PEER));
            IS(NCP_BUSY, ncp_reset(&copy, PEER));
            ncp_free(&copy);
            return;
        }
        IS(NCP_NEW_OUT_OF_MEMORY, answered);
        IS(0, ncp_is_made(&copy));
    }
    IS(0, 1);
}

/* A host is saved, by a first call for the size. A buffer that is one byte too short is left unchanged, and so is the host if the bytes
 * are no host or in another layout, or if an allocation fails. */
static void saved_and_loaded(struct ncp_host *host)
{
    static uint8_t bytes[8192], again[8192];
    struct ncp_host other = NCP_EMPTY;
    size_t size = 0, more = 0;
    long had;
    uint32_t answered = NCP_OUT_OF_MEMORY;
    IS(NCP_SHORT_BUFFER, ncp_save(host, NULL, 0, &size));
    IS(1, size > 9 && size < sizeof bytes);
    bytes[0] = 77;
    IS(NCP_SHORT_BUFFER, ncp_save(host, bytes, size - 1, &more));
    IS(size, more);
    IS(77, bytes[0]);
    for (had = 0; had < 64 && answered == NCP_OUT_OF_MEMORY; had++) {
        left = had;
        answered = ncp_save(host, bytes, size, &more);
        left = -1;
    }
    IS(NCP_DONE, answered);
    IS(1, had > 1);
    IS(0, memcmp(bytes, "NCP host\1", 9));

    answered = NCP_LOAD_OUT_OF_MEMORY;
    for (had = 0; had < 64 && answered == NCP_LOAD_OUT_OF_MEMORY; had++) {
        IS(0, ncp_is_made(&other));
        left = had;
        answered = ncp_load(&other, bytes, size);
        left = -1;
    }
    IS(NCP_DONE, answered);
    IS(1, had > 1);
    IS(NCP_DONE, ncp_save(&other, again, sizeof again, &more));
    IS(size, more);
    IS(0, memcmp(bytes, again, size));

    IS(NCP_LOAD_NOT_A_HOST, ncp_load(&other, bytes, 0));
    IS(NCP_LOAD_NOT_A_HOST, ncp_load(&other, bytes, 8));
    IS(NCP_LOAD_NOT_A_HOST, ncp_load(&other, bytes, size - 1));
    IS(NCP_LOAD_NOT_A_HOST, ncp_load(&other, bytes, size + 1));
    bytes[8] = 2;
    IS(NCP_LOAD_OTHER_VERSION, ncp_load(&other, bytes, size));
    IS(NCP_LOAD_OTHER_VERSION, ncp_load(&other, bytes, 9));
    bytes[0] = 'n';
    IS(NCP_LOAD_NOT_A_HOST, ncp_load(&other, bytes, size));
    IS(NCP_DONE, ncp_reset(&other, PEER));
    ncp_free(&other);
}

/* A host that has sent its RST comes up, and asks without memory for the room. */
static void no_room_for_text(struct ncp_host *host)
{
    const uint8_t rfnm[] = {5, PEER, 0, 0};
    const uint8_t rrp[] = {0, PEER, 0, 0, 0, 8, 0, 1, 0, 13};
    struct ncp_arrived arrived;
    IS(NCP_DONE, ncp_receive(host, rfnm, sizeof rfnm, 8 * sizeof rfnm, &arrived));
    IS(NCP_DONE, ncp_receive(host, rrp, sizeof rrp, 8 * sizeof rrp, &arrived));
    left = 0;
    IS(NCP_OUT_OF_MEMORY, ncp_ask_send(host, PEER, ODD, EVEN, 8, 64));
    IS(NCP_OUT_OF_MEMORY, ncp_ask_receive(host, PEER, EVEN, ODD, 64));
    left = -1;
    IS(NCP_NOTHING, ncp_waiting(host, PEER, 0, out, sizeof out, &size));
    IS(NCP_DONE, ncp_ask_send(host, PEER, ODD, EVEN, 8, 64));
    IS(NCP_DONE, ncp_ask_receive(host, PEER, EVEN, ODD, 64));
}

/* The two connections of that host, in the order of the sockets here, with their rooms and links; and what was sent is sent again. */
static void connections(struct ncp_host *host)
{
    struct ncp_connection state;
    uint32_t local = MARK, remote = MARK, room = MARK;
    IS(NCP_UNKNOWN_PEER, ncp_connection_at(host, 9, 0, &local, &remote, &state));
    IS(NCP_NOTHING, ncp_connection_at(host, PEER, 2, &local, &remote, &state));
    IS(NCP_UNKNOWN_PEER, ncp_room(host, 9, EVEN, ODD, &room));
    IS(NCP_NO_ENTRY, ncp_room(host, PEER, ODD, ODD, &room));
    IS(NCP_UNKNOWN_PEER, ncp_pair_on(host, 9, false, 2, &local, &remote));
    IS(NCP_NOTHING, ncp_pair_on(host, PEER, true, 2, &local, &remote));
    IS(NCP_NOTHING, ncp_pair_on(host, PEER, false, 3, &local, &remote));
    IS(MARK, local);
    IS(MARK, remote);
    IS(MARK, room);
    IS(NCP_DONE, ncp_connection_at(host, PEER, 0, &local, &remote, &state));
    IS(EVEN, local);
    IS(ODD, remote);
    IS(2, state.link);
    IS(NCP_DONE, ncp_connection_at(host, PEER, 1, &local, &remote, &state));
    IS(ODD, local);
    IS(EVEN, remote);
    IS(true, state.sends);
    IS(NCP_DONE, ncp_room(host, PEER, ODD, EVEN, &room));
    IS(64, room);
    IS(NCP_DONE, ncp_pair_on(host, PEER, false, 2, &local, &remote));
    IS(EVEN, local);
    IS(ODD, remote);
    IS(NCP_DONE, ncp_next_output(host, out, sizeof out, &size));
    IS(NCP_NOTHING, ncp_next_output(host, out, sizeof out, &size));
    IS(NCP_UNKNOWN_PEER, ncp_unacknowledged(host, 9, &room));
    IS(64, room);
    IS(NCP_UNKNOWN_PEER, ncp_restart(host, 9));
    IS(NCP_DONE, ncp_restart(host, PEER));
    IS(NCP_DONE, ncp_next_output(host, out, sizeof out, &size));
    IS(2, out[9]); /* the STR and the RTS once more */
}

/* How many of the changes are reported. */
static uint32_t told(const struct ncp_changes *it)
{
    return (uint32_t)(it->asks + it->opened + it->text + it->allowed + it->delivered + it->interrupted + it->closes + it->closed + it->refused +
                      it->ended);
}

/* Each change of a requested connection is reported once: it opens, more is allowed and an interrupt arrives, and it ends. */
static void changes(struct ncp_host *host)
{
    const uint8_t rts[] = {0, PEER, 0, 0, 0, 8, 0, 10, 0, 1, 0, 0, 0, EVEN, 0, 0, 0, ODD, 5};
    const uint8_t more[] = {0, PEER, 0, 0, 0, 8, 0, 10, 0, 4, 5, 0, 1, 0, 0, 0, 8, 7, 5};
    const uint8_t cls[] = {0, PEER, 0, 0, 0, 8, 0, 9, 0, 3, 0, 0, 0, EVEN, 0, 0, 0, ODD};
    struct ncp_connection seen, state;
    struct ncp_changes it;
    struct ncp_arrived arrived;
    memset(&seen, 0, sizeof seen);
    IS(NCP_UNKNOWN_PEER, ncp_changes(host, 9, ODD, EVEN, &seen, &it));
    IS(NCP_DONE, ncp_changes(host, PEER, ODD, EVEN, &seen, &it));
    IS(0, told(&it));
    IS(true, seen.asked);
    IS(NCP_DONE, ncp_receive(host, rts, sizeof rts, 8 * sizeof rts, &arrived));
    IS(NCP_DONE, ncp_changes(host, PEER, ODD, EVEN, &seen, &it));
    IS(1, told(&it));
    IS(true, it.opened);
    IS(NCP_DONE, ncp_receive(host, more, sizeof more, 8 * sizeof more, &arrived));
    IS(NCP_DONE, ncp_changes(host, PEER, ODD, EVEN, &seen, &it));
    IS(2, told(&it));
    IS(true, it.allowed && it.interrupted);
    IS(8, seen.bits);
    IS(NCP_DONE, ncp_state(host, PEER, ODD, EVEN, &state));
    IS(state.link, seen.link);
    IS(NCP_DONE, ncp_changes(host, PEER, ODD, EVEN, &seen, &it));
    IS(0, told(&it));
    IS(NCP_DONE, ncp_receive(host, cls, sizeof cls, 8 * sizeof cls, &arrived));
    IS(NCP_DONE, ncp_changes(host, PEER, ODD, EVEN, &seen, &it));
    IS(1, told(&it));
    IS(true, it.ended);
    IS(NCP_DONE, ncp_changes(host, PEER, ODD, EVEN, &seen, &it));
    IS(0, told(&it));
    IS(false, seen.asked);
}

/* The maximal number of peers, and one too many. The last has the greatest number, and comes up. */
static void eight_peers(void)
{
    static const uint8_t nine[] = {2, 3, 4, 5, 6, 7, 8, 255, 9};
    const uint8_t rst[] = {0, 255, 0, 0, 0, 8, 0, 1, 0, 12};
    const uint8_t rrp[] = {0, 255, 0, 0, 0, 8, 0, 1, 0, 13};
    struct ncp_host host = NCP_EMPTY;
    struct ncp_arrived arrived;
    IS(NCP_NEW_BAD_PEERS, ncp_new(&host, ME, nine, 9));
    IS(NCP_DONE, ncp_new(&host, ME, nine, 8));
    IS(NCP_DONE, ncp_receive(&host, rst, sizeof rst, 8 * sizeof rst, &arrived));
    IS(NCP_ARRIVED_CONTROL, arrived.what);
    IS(0, arrived.errors);
    IS(1, arrived.resets);
    IS(NCP_DONE, ncp_next_output(&host, out, sizeof out, &size));
    IS(80, (uint32_t)size);
    IS(0, (uint32_t)memcmp(rrp, out, sizeof rrp));
    ncp_free(&host);
}

int main(void)
{
    struct ncp_host host = NCP_EMPTY;
    memset(out, MARK, sizeof out);
    size = MARK;
    no_host(NULL);
    no_host(&host);
    IS(NCP_NO_HOST, ncp_new(NULL, ME, peers, 1));
    IS(NCP_NEW_BAD_PEERS, ncp_new(&host, PEER, peers, 1));
    IS(NCP_NEW_BAD_PEERS, ncp_new(&host, ME, peers, 0));
    no_host(&host);
    IS(NCP_DONE, ncp_new(&host, ME, peers, 1));
    no_copy(&host);
    saved_and_loaded(&host);
    IS(NCP_DONE, ncp_reset(&host, PEER));
    no_pointer(&host);
    short_buffers(&host);
    IS(NCP_DONE, ncp_next_output(&host, out, sizeof out, &size));
    IS(80, (uint32_t)size);
    IS(NCP_UNKNOWN_PEER, ncp_reset(&host, 9));
    arrivals(&host);
    IS(NCP_DONE, ncp_next_output(&host, out, sizeof out, &size));
    no_room_for_text(&host);
    connections(&host);
    changes(&host);
    ncp_free(&host);
    ncp_free(&host);
    no_memory();
    names();
    sizes();
    memset(out, MARK, sizeof out);
    commands();
    memset(out, MARK, sizeof out);
    size = MARK;
    subnets();
    eight_peers();
    return 0;
}
