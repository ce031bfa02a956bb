/* Many hosts of the library for C in one process. A line of standard input is a command:
 *
 *     make HOSTS PEERS 0        makes HOSTS hosts, each with PEERS peers
 *     list HOSTS PEERS 0        the same, and lists each block that is requested from malloc for it
 *     open HOSTS PEERS 0        also brings each host up with its peers, and opens a connection each way with each
 *     pass HOSTS PEERS COUNT    then passes COUNT texts
 *
 * A passing text arrives from a peer, is taken, is given on the connection back to that peer, is sent, and is answered;
 * the next is from the next peer. `pass` prints how many passed correctly, the others print the bytes that the library
 * has allocated with malloc, what the GNU C library uses for them, and the number of blocks; `list` first prints the
 * bytes of each block. Then the program waits until standard input ends. To be linked with
 * -Wl,--wrap=malloc,--wrap=realloc,--wrap=free. */
#include "ncp.h"
#include <malloc.h>
#include <stdio.h>
#include <stdlib.h>
#include <string.h>

enum { MOST_HOSTS = 1000, MOST_PEERS = 8, ME = 1, FIRST = 2 /* and the peers after it */ };
enum { REGULAR = 0, RFNM = 5, CONTROL = 0, LINK = 2, LEADER = 4, TEXT = 8 /* bytes */ };
enum { LOCAL_IN = 2, REMOTE_IN = 3, LOCAL_OUT = 3, REMOTE_OUT = 2, ROOM = 8192 /* bytes of an end */ };

/* A host with one of its peers. */
struct place {
    struct ncp_host *host;
    uint8_t peer;
    unsigned allowed; /* texts that may still pass */
};

static struct ncp_host all[MOST_HOSTS]; /* of zeros, so each is NCP_EMPTY */
static struct place places[MOST_HOSTS * MOST_PEERS];
static size_t bytes_had, taken_had, blocks_had;
static bool is_listed;

/* Precedes each block that the library has: its size, aligned as the block has to be. */
union head {
    size_t size;
    long double aligned;
};

/* The memory of the block, without this head: its usable bytes, and the size that malloc stores before it. */
static size_t taken_for(union head *head)
{
    return malloc_usable_size(head) + sizeof(size_t) - sizeof(union head);
}

void *__real_malloc(size_t bytes);
void *__real_realloc(void *block, size_t bytes);
void __real_free(void *block);
void *__wrap_malloc(size_t bytes);
void *__wrap_realloc(void *block, size_t bytes);
void __wrap_free(void *block);

static void *had(union head *head, size_t bytes)
{
    if (head == NULL) return NULL;
    head->size = bytes;
    bytes_had += bytes;
    taken_had += taken_for(head);
    blocks_had++;
    if (is_listed) printf("%lu ", (unsigned long)bytes);
    return head + 1;
}

void *__wrap_malloc(size_t bytes)
{
    return had(__real_malloc(sizeof(union head) + bytes), bytes);
}

static union head *let_go(void *block)
{
    union head *head = (union head *)block - 1;
    bytes_had -= head->size;
    taken_had -= taken_for(head);
    blocks_had--;
    return head;
}

void *__wrap_realloc(void *block, size_t bytes)
{
    return had(__real_realloc(block == NULL ? NULL : let_go(block), sizeof(union head) + bytes), bytes);
}

void __wrap_free(void *block)
{
    if (block != NULL) __real_free(let_go(block));
}

static void want(bool is_so, const char *what)
{
    if (is_so) return;
    fprintf(stderr, "%s: not as it should be\n", what);
    exit(1);
}

static struct ncp_arrived receive(struct ncp_host *host, const uint8_t *message, size_t len)
{
    struct ncp_arrived arrived;
    want(ncp_receive(host, message, len, 8 * len, &arrived) == NCP_DONE, "receive");
    return arrived;
}

/* Sends the next message, on a link, and answers it with RFNM. */
static void goes_out(const struct place *at, uint8_t link)
{
    uint8_t message[NCP_LONGEST_MESSAGE];
    const uint8_t rfnm[LEADER] = {RFNM, at->peer, link, 0};
    size_t bits = 0;
    want(ncp_next_output(at->host, message, sizeof message, &bits) == NCP_DONE, "next_output");
    want(message[1] == at->peer && message[2] == link, "what goes out");
    want(receive(at->host, rfnm, sizeof rfnm).what == NCP_ARRIVED_ANSWERED, "the answer");
}

/* Each side allows the other as many texts as it has room for. */
static void allow(struct place *at)
{
    const uint8_t all[] = {REGULAR, at->peer, CONTROL, 0, 0, 8, 0, 8, 0, 4, LINK, ROOM / TEXT >> 8, 0, 0, 8 * ROOM >> 16, 0, 0};
    at->allowed = ROOM / TEXT;
    want(ncp_allocate(at->host, at->peer, LOCAL_IN, REMOTE_IN, ROOM / TEXT, 8 * ROOM) == NCP_DONE, "allocate");
    goes_out(at, CONTROL);
    receive(at->host, all, sizeof all);
}

/* RST and RRP of the peer, and then its STR and RTS. */
static void open_with(struct place *at)
{
    const uint8_t up[] = {REGULAR, at->peer, CONTROL, 0, 0, 8, 0, 2, 0, 12, 13};
    const uint8_t asks[] = {REGULAR, at->peer, CONTROL, 0, 0, 8, 0, 20, 0, 2, 0, 0, 0, REMOTE_IN, 0, 0, 0, LOCAL_IN, 8,
                            1, 0, 0, 0, REMOTE_OUT, 0, 0, 0, LOCAL_OUT, LINK};
    want(ncp_reset(at->host, at->peer) == NCP_DONE, "reset");
    receive(at->host, up, sizeof up);
    goes_out(at, CONTROL);
    want(ncp_is_up(at->host, at->peer), "coming up");
    want(ncp_ask_send(at->host, at->peer, LOCAL_OUT, REMOTE_OUT, 8, 8 * ROOM) == NCP_DONE, "ask_send");
    want(ncp_ask_receive(at->host, at->peer, LOCAL_IN, REMOTE_IN, 8 * ROOM) == NCP_DONE, "ask_receive");
    goes_out(at, CONTROL);
    receive(at->host, asks, sizeof asks);
    want(ncp_is_open(at->host, at->peer, LOCAL_OUT, REMOTE_OUT), "the connection out");
    want(ncp_is_open(at->host, at->peer, LOCAL_IN, REMOTE_IN), "the connection in");
    allow(at);
}

/* Receives a text, and sends it back. Returns whether all was correct. */
static bool passes(struct place *at)
{
    const uint8_t text[] = {REGULAR, at->peer, LINK, 0, 0, 8, 0, TEXT, 0, 'a', 'b', 'c', 'd', 'e', 'f', 'g', 'h'};
    uint8_t taken[NCP_LONGEST_MESSAGE];
    struct ncp_arrived arrived;
    size_t bits = 0;
    if (at->allowed == 0) allow(at);
    at->allowed--;
    arrived = receive(at->host, text, sizeof text);
    want(ncp_take(at->host, at->peer, LOCAL_IN, REMOTE_IN, TEXT, taken, sizeof taken, &bits) == NCP_DONE, "take");
    want(ncp_give(at->host, at->peer, LOCAL_OUT, REMOTE_OUT, taken, TEXT, bits) == NCP_DONE, "give");
    goes_out(at, LINK);
    return arrived.what == NCP_ARRIVED_TEXT && arrived.detail == 1 && bits == 8 * TEXT && memcmp(taken, text + 9, TEXT) == 0;
}

int main(void)
{
    char word[5];
    unsigned hosts, peers, count, passed = 0;
    uint8_t numbers[MOST_PEERS];
    if (scanf("%4s %u %u %u", word, &hosts, &peers, &count) != 4 || hosts - 1 >= MOST_HOSTS || peers - 1 >= MOST_PEERS) {
        fputs("usage: make | list | open | pass HOSTS PEERS COUNT\n", stderr);
        return 2;
    }
    for (unsigned place = 0; place < peers; place++) numbers[place] = (uint8_t)(FIRST + place);
    is_listed = strcmp(word, "list") == 0;
    for (unsigned host = 0; host < hosts; host++) want(ncp_new(&all[host], ME, numbers, peers) == NCP_DONE, "new");
    for (unsigned place = 0; place < hosts * peers; place++) {
        places[place].host = &all[place / peers];
        places[place].peer = numbers[place % peers];
        if (strcmp(word, "open") == 0 || strcmp(word, "pass") == 0) open_with(&places[place]);
    }
    for (unsigned text = 0; text < count; text++) passed += passes(&places[text % (hosts * peers)]);
    if (strcmp(word, "pass") == 0) printf("%u\n", passed);
    else printf("%lu %lu %lu\n", (unsigned long)bytes_had, (unsigned long)taken_had, (unsigned long)blocks_had);
    fflush(stdout);
    while (getchar() != EOF) continue;
    for (unsigned host = 0; host < hosts; host++) ncp_free(&all[host]);
    want(bytes_had == 0 && taken_had == 0 && blocks_had == 0, "what is left");
    return 0;
}
