/* SPDX-License-Identifier: MIT */
/* With ample memory each function that allocates succeeds, at its least size, at one between and at its greatest. A host at every limit,
 * with eight peers, is saved, loaded and copied, and is the same host. Prints nothing if all is as it should be. */
#include "ncp.h"
#include <stdio.h>
#include <stdlib.h>
#include <string.h>

#define IS(wanted, found) is((long)(wanted), (long)(found), __LINE__)
enum { ME = 1, FIRST = 2, MOST_PEERS = 8, ASKED = 64, HALF = ASKED / 2, LINK = 2, ROOM = 65536, TEXT = 1015, ERRORS = 16, WAITING = 512 };
enum { RTS = 1, STR = 2, ALL = 4, ECO = 9, ERR = 11 };

static uint8_t message[NCP_LONGEST_MESSAGE], zeros[NCP_LONGEST_MESSAGE];

static void is(long wanted, long found, int line)
{
    if (wanted == found) return;
    printf("line %d: %ld in place of %ld\n", line, found, wanted);
    exit(1);
}

/* A message of `len` bytes of text, in bytes of 8 bits, that arrives on a link from a peer. */
static struct ncp_arrived arrive(struct ncp_host *host, uint8_t peer, uint8_t link, const uint8_t *text, size_t len)
{
    struct ncp_arrived arrived;
    const uint8_t head[] = {0, peer, link, 0, 0, 8, (uint8_t)(len >> 8), (uint8_t)len, 0};
    memcpy(message, head, sizeof head);
    memcpy(message + sizeof head, text, len);
    IS(NCP_DONE, ncp_receive(host, message, sizeof head + len, 8 * (sizeof head + len), &arrived));
    return arrived;
}

/* A command from a peer with two sockets of one byte, and one byte more. */
static void request(struct ncp_host *host, uint8_t peer, uint8_t code, unsigned there, unsigned here, unsigned last)
{
    const uint8_t command[] = {code, 0, 0, 0, (uint8_t)there, 0, 0, 0, (uint8_t)here, (uint8_t)last};
    IS(NCP_ARRIVED_CONTROL, arrive(host, peer, 0, command, sizeof command).what);
}

/* An answer of this type on a link. */
static void answer(struct ncp_host *host, uint8_t peer, uint8_t link, uint8_t type)
{
    const uint8_t leader[] = {type, peer, link, 0};
    struct ncp_arrived arrived;
    IS(NCP_DONE, ncp_receive(host, leader, sizeof leader, 8 * sizeof leader, &arrived));
    IS(NCP_ARRIVED_ANSWERED, arrived.what);
}

static void bring_up(struct ncp_host *host, uint8_t peer)
{
    const uint8_t rrp[] = {13};
    size_t bits;
    IS(NCP_DONE, ncp_reset(host, peer));
    IS(NCP_DONE, ncp_next_output(host, message, sizeof message, &bits));
    answer(host, peer, 0, NCP_TYPE_RFNM);
    IS(NCP_ARRIVED_CONTROL, arrive(host, peer, 0, rrp, sizeof rrp).what);
    IS(true, ncp_is_up(host, peer));
}

static uint32_t connections(struct ncp_host *host, uint8_t peer)
{
    struct ncp_connection it;
    uint32_t count = 0, local, remote;
    while (ncp_connection_at(host, peer, count, &local, &remote, &it) == NCP_DONE) count++;
    return count;
}

/* The host is saved, loaded and copied, and all three are saved as the same bytes. */
static void is_kept(struct ncp_host *host)
{
    struct ncp_host loaded = NCP_EMPTY, copy = NCP_EMPTY, *others[] = {&loaded, &copy};
    size_t size = 0, more = 0;
    uint8_t *bytes, *again;
    IS(NCP_SHORT_BUFFER, ncp_save(host, NULL, 0, &size));
    bytes = (uint8_t *)malloc(size), again = (uint8_t *)malloc(size);
    IS(1, bytes != NULL && again != NULL);
    IS(NCP_DONE, ncp_save(host, bytes, size, &size));
    IS(NCP_DONE, ncp_load(&loaded, bytes, size));
    IS(NCP_DONE, ncp_copy(host, &copy));
    for (int k = 0; k < 2; k++) {
        IS(NCP_DONE, ncp_save(others[k], again, size, &more));
        IS(size, more);
        IS(0, memcmp(bytes, again, size));
        ncp_free(others[k]);
    }
    free(bytes), free(again);
}

/* Half of the requests are to send and half to receive. The peer makes each of them too, and as many others. */
static void fill_connections(struct ncp_host *host, uint8_t peer, uint32_t room)
{
    for (unsigned k = 0; k < HALF; k++) {
        IS(NCP_DONE, ncp_ask_send(host, peer, 2 * k + 1, 2 * k, 8, room));
        IS(NCP_DONE, ncp_ask_receive(host, peer, 2 * k, 2 * k + 1, room));
    }
    IS(NCP_TABLE_FULL, ncp_ask_send(host, peer, 201, 200, 8, room));
    for (unsigned k = 0; k < HALF; k++) {
        request(host, peer, RTS, 2 * k, 2 * k + 1, LINK + k);
        request(host, peer, STR, 2 * k + 1, 2 * k, 8);
    }
    for (unsigned k = 0; k < ASKED; k++) request(host, peer, STR, 2 * k + 1, 254, 8);
    IS(2 * ASKED, connections(host, peer));
}

/* Each sender has as much queued text, and each receiver as much held text, as its room takes. */
static void fill_rooms(struct ncp_host *host, uint8_t peer)
{
    struct ncp_connection it;
    for (unsigned k = 0; k < HALF; k++) {
        for (int part = 0; part < ROOM / 8192; part++) IS(NCP_DONE, ncp_give(host, peer, 2 * k + 1, 2 * k, zeros, sizeof zeros, 8192));
        IS(NCP_NO_ROOM, ncp_give(host, peer, 2 * k + 1, 2 * k, zeros, 1, 8));
        IS(NCP_DONE, ncp_allocate(host, peer, 2 * k, 2 * k + 1, ROOM / 8, ROOM));
        IS(NCP_DONE, ncp_state(host, peer, 2 * k, 2 * k + 1, &it));
        for (size_t sent = 0; sent < ROOM / 8; sent += TEXT) {
            struct ncp_arrived arrived;
            size_t len = ROOM / 8 - sent;
            if (len > TEXT) len = TEXT;
            arrived = arrive(host, peer, it.link, zeros, len);
            IS(NCP_ARRIVED_TEXT, arrived.what);
            IS(1, arrived.detail);
        }
        IS(NCP_DONE, ncp_state(host, peer, 2 * k, 2 * k + 1, &it));
        IS(ROOM, it.stored);
    }
}

/* A text is unanswered, a control message is held, and as many ERRs are kept and commands queued as can be. */
static void fill_links(struct ncp_host *host, uint8_t peer)
{
    const uint8_t err[12] = {ERR, 3}, eco[] = {ECO, 65}, all[] = {ALL, LINK, 0, 1, 0, 0, 31, 64};
    struct ncp_noted noted;
    uint8_t command[NCP_LONGEST_COMMAND];
    size_t bits, size;
    arrive(host, peer, 0, all, sizeof all);
    for (int k = 0; k < ERRORS + 1; k++) IS(1, arrive(host, peer, 0, err, sizeof err).errors);
    IS(NCP_DONE, ncp_error(host, peer, ERRORS - 1, &noted));
    IS(NCP_NOTHING, ncp_error(host, peer, ERRORS, &noted));
    while (ncp_next_output(host, message, sizeof message, &bits) == NCP_DONE)
        if (message[2] == 0) answer(host, peer, 0, NCP_TYPE_DESTINATION_DEAD);
    IS(true, ncp_is_held(host, peer, 0));
    while (ncp_waiting(host, peer, WAITING - 1, command, sizeof command, &size) == NCP_NOTHING) arrive(host, peer, 0, eco, sizeof eco);
    IS(true, ncp_is_up(host, peer));
}

static void hosts(void)
{
    static const uint8_t peers[] = {2, 3, 4, 5, 6, 7, 8, 9};
    static const uint32_t rooms[] = {1, ROOM / 2, ROOM};
    struct ncp_host host = NCP_EMPTY;
    for (size_t count = 1; count <= MOST_PEERS; count++) {
        IS(NCP_DONE, ncp_new(&host, ME, peers, count));
        is_kept(&host);
    }
    bring_up(&host, FIRST);
    for (unsigned k = 0; k < 3; k++) {
        IS(NCP_DONE, ncp_ask_send(&host, FIRST, 2 * k + 1, 0, 8, rooms[k]));
        IS(NCP_DONE, ncp_ask_receive(&host, FIRST, 2 * k, 1, rooms[k]));
        is_kept(&host);
    }
    IS(NCP_DONE, ncp_new(&host, ME, peers, MOST_PEERS));
    for (uint8_t peer = FIRST; peer < FIRST + MOST_PEERS; peer++) {
        bring_up(&host, peer);
        fill_connections(&host, peer, ROOM);
        is_kept(&host);
        fill_rooms(&host, peer);
        fill_links(&host, peer);
        is_kept(&host);
    }
    ncp_free(&host);
}

int main(void)
{
    static const uint8_t numbers[] = {1, 2, 3, 4, 5, 6, 7, 8};
    struct ncp_subnet subnet = NCP_EMPTY;
    hosts();
    for (size_t count = 0; count <= sizeof numbers; count++) IS(NCP_DONE, ncp_subnet_new(&subnet, numbers, count));
    ncp_subnet_free(&subnet);
    return 0;
}
