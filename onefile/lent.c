/* SPDX-License-Identifier: MIT */
/* Hosts in the caller's memory: how much they need, and what happens when it is full. ncp.c is compiled with NCP_IN, and with an NCP_MALLOC
 * that always fails. Here the capacity of such a host is tested; examples/embed/digest.c tests its answers. */
#include "ncp.h"
#include <stdio.h>
#include <stdlib.h>
#include <string.h>

#define HOLDS(it) ((it) ? (void)0 : lost(#it, __LINE__))
enum { ME = 1, PEER = 2, MARK = 0xa5, AROUND = 64, ROOM = 8000, MANY = 64, ROUNDS = 200 };

static const uint8_t peers[] = {2, 3, 4, 5, 6, 7, 8, 9, 10};
static uint8_t *whole;
static size_t whole_size;

static void lost(const char *what, int line)
{
    printf("lent.c:%d: %s\n", line, what);
    exit(1);
}

/* Memory of this size at an odd address, with marks around it. */
static void *lend(size_t size)
{
    free(whole);
    whole_size = size + 2 * AROUND + 1;
    whole = (uint8_t *)malloc(whole_size);
    HOLDS(whole != NULL);
    memset(whole, MARK, whole_size);
    return whole + AROUND + 1;
}

static bool is_whole_around(void)
{
    size_t at;
    for (at = 0; at < AROUND; at++)
        if (whole[at] != MARK || whole[whole_size - 1 - at] != MARK) return false;
    return true;
}

/* Brings the host up with its first peer, as if the peer answered: all connections end. */
static void bring_up(struct ncp_host *host)
{
    static const uint8_t rfnm[] = {5, PEER, 0, 0}, rrp[] = {0, PEER, 0, 0, 0, 8, 0, 1, 0, 13};
    uint8_t message[NCP_LONGEST_MESSAGE];
    struct ncp_arrived arrived;
    size_t bits = 0;
    HOLDS(ncp_reset(host, PEER) == NCP_DONE);
    while (ncp_next_output(host, message, sizeof message, &bits) == NCP_DONE) HOLDS(ncp_receive(host, rfnm, sizeof rfnm, 32, &arrived) == NCP_DONE);
    HOLDS(ncp_receive(host, rrp, sizeof rrp, 80, &arrived) == NCP_DONE && ncp_is_up(host, PEER));
}

/* Asks for connections until one is refused, and returns their number, and the refusal. */
static unsigned ask_all(struct ncp_host *host, uint32_t *why)
{
    unsigned count = 0;
    while ((*why = ncp_ask_send(host, PEER, 1 + 2 * count, 2, 8, ROOM)) == NCP_DONE) count++;
    return count;
}

static unsigned connections(struct ncp_host *host)
{
    struct ncp_connection it;
    uint32_t local, remote;
    unsigned count = 0;
    while (ncp_connection_at(host, PEER, count, &local, &remote, &it) == NCP_DONE) count++;
    return count;
}

static void sizes(void)
{
    struct ncp_host host = NCP_EMPTY;
    size_t count, size;
    HOLDS(ncp_size(0, 0, 0) == 0 && ncp_size(9, 0, 0) == 0);
    for (count = 1; count <= 8; count++) {
        size = ncp_size(count, 0, 0);
        HOLDS(ncp_new_in(&host, ME, peers, count, lend(size), size) == NCP_DONE && is_whole_around());
        ncp_free(&host);
        HOLDS(!ncp_is_made(&host) && is_whole_around());
        /* It asks for little more than is needed. */
        size -= size / 200;
        HOLDS(ncp_new_in(&host, ME, peers, count, lend(size), size) == NCP_NEW_OUT_OF_MEMORY && !ncp_is_made(&host) && is_whole_around());
    }
}

static void errors(void)
{
    struct ncp_host host = NCP_EMPTY;
    size_t size = ncp_size(1, 0, 0), small;
    void *memory = lend(size);
    HOLDS(ncp_new_in(NULL, ME, NULL, 1, NULL, 0) == NCP_NO_HOST);
    HOLDS(ncp_new_in(&host, ME, NULL, 1, memory, size) == NCP_NO_POINTER);
    HOLDS(ncp_new_in(&host, ME, peers, 1, NULL, size) == NCP_NO_POINTER);
    HOLDS(ncp_new_in(&host, PEER, peers, 1, memory, 0) == NCP_NEW_BAD_PEERS);
    for (small = 0; small < 200; small++) HOLDS(ncp_new_in(&host, ME, peers, 1, lend(small), small) == NCP_NEW_OUT_OF_MEMORY && is_whole_around());
    HOLDS(ncp_new(&host, ME, peers, 1) == NCP_NEW_OUT_OF_MEMORY);
    HOLDS(ncp_new_in(&host, ME, peers, 1, lend(size), size) == NCP_DONE);
    HOLDS(ncp_new_in(&host, PEER, peers, 1, whole, 0) == NCP_BUSY);
    HOLDS(ncp_new(&host, ME, peers, 1) == NCP_NEW_OUT_OF_MEMORY && ncp_is_made(&host));
    ncp_free(&host);
}

/* The memory of ended connections is reused. If memory is full, nothing is lost. */
static void rooms(void)
{
    struct ncp_host host = NCP_EMPTY;
    size_t size = ncp_size(1, MANY, ROOM);
    uint32_t why;
    unsigned round, few;
    HOLDS(ncp_new_in(&host, ME, peers, 1, lend(size), size) == NCP_DONE);
    for (round = 0; round < ROUNDS; round++) {
        bring_up(&host);
        HOLDS(ask_all(&host, &why) == MANY && why == NCP_TABLE_FULL && connections(&host) == MANY);
    }
    ncp_free(&host);
    HOLDS(is_whole_around());
    for (few = 0; few < MANY; few += 7) {
        size = ncp_size(1, few, ROOM);
        HOLDS(ncp_new_in(&host, ME, peers, 1, lend(size), size) == NCP_DONE);
        for (round = 0; round < 3; round++) {
            unsigned got;
            bring_up(&host);
            got = ask_all(&host, &why);
            HOLDS(got >= few && got < few + 5 && why == NCP_OUT_OF_MEMORY && connections(&host) == got);
        }
        ncp_free(&host);
        HOLDS(is_whole_around());
    }
}

/* Copies, and what is saved and loaded, in the same memory. */
static void copies(void)
{
    struct ncp_host host = NCP_EMPTY, copy = NCP_EMPTY;
    uint8_t first[4096], second[4096];
    size_t one = ncp_size(1, MANY, 64), size = 2 * one, first_size = 0, second_size = 0;
    unsigned round;
    HOLDS(ncp_new_in(&host, ME, peers, 1, lend(one), one) == NCP_DONE);
    HOLDS(ncp_copy(&host, &copy) == NCP_NEW_OUT_OF_MEMORY && !ncp_is_made(&copy));
    ncp_free(&host);
    HOLDS(ncp_new_in(&host, ME, peers, 1, lend(size), size) == NCP_DONE);
    bring_up(&host);
    HOLDS(ncp_ask_send(&host, PEER, 1, 2, 8, 64) == NCP_DONE);
    HOLDS(ncp_save(&host, first, sizeof first, &first_size) == NCP_DONE);
    for (round = 0; round < ROUNDS; round++) {
        HOLDS(ncp_copy(&host, &copy) == NCP_DONE);
        ncp_free(&host);
        host = copy, copy.at = NULL;
        HOLDS(ncp_load(&host, first, first_size) == NCP_DONE);
        HOLDS(ncp_save(&host, second, sizeof second, &second_size) == NCP_DONE);
        HOLDS(first_size == second_size && memcmp(first, second, first_size) == 0);
    }
    ncp_free(&host);
    HOLDS(is_whole_around());
}

/* A save, and a load, that find the memory full leave the host unchanged. */
static void full(void)
{
    struct ncp_host host = NCP_EMPTY;
    static uint8_t saved[4096], again[65536];
    size_t size = ncp_size(1, 4, ROOM) + 16384, saved_size = 0, again_size = 0;
    uint32_t why;
    unsigned count;
    HOLDS(ncp_new_in(&host, ME, peers, 1, lend(size), size) == NCP_DONE);
    bring_up(&host);
    HOLDS(ncp_ask_send(&host, PEER, 1001, 2, 8, ROOM) == NCP_DONE && ncp_save(&host, saved, sizeof saved, &saved_size) == NCP_DONE);
    count = ask_all(&host, &why);
    HOLDS(count > 4 && why == NCP_OUT_OF_MEMORY);
    HOLDS(ncp_save(&host, again, sizeof again, &again_size) == NCP_OUT_OF_MEMORY && connections(&host) == count + 1);
    HOLDS(ncp_load(&host, saved, saved_size) == NCP_LOAD_OUT_OF_MEMORY && connections(&host) == count + 1);
    bring_up(&host);
    HOLDS(connections(&host) == 0 && ncp_ask_send(&host, PEER, 1001, 2, 8, ROOM) == NCP_DONE);
    ncp_free(&host);
    HOLDS(is_whole_around());
}

int main(void)
{
    sizes();
    errors();
    rooms();
    copies();
    full();
    free(whole);
    puts("as it should be");
    return 0;
}
