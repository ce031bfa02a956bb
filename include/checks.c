/* SPDX-License-Identifier: MIT */
/* The functions of ncp.h: each looks for null pointers, and calls the one of the proved library that is named as it.
 * include/library joins both in one archive, out of which no name of the library is seen. */
#include "ncp.h"

/* The structs that the library alone takes: which connection is meant, and which link from one host to another. They have the fields
 * of the `repr(C)` structs of the library that are named as they are, in their order and of their types: include/compare looks. */
struct which {
    uint8_t peer;
    uint32_t local;
    uint32_t remote;
};

struct lane {
    uint8_t from;
    uint8_t to;
    uint8_t link;
};

/* The functions of the library, in the sources of crates/ncp_embed. No pointer of theirs may be null. A `handle` whose
 * `at` is null has no host, and is answered NCP_NO_HOST by these too, behind what they say of bits and buffers; so a `net`
 * NCP_NO_SUBNET. */
uint32_t ncp_embed_new(struct ncp_host *handle, uint8_t me, const uint8_t *peers, size_t peers_len);
uint32_t ncp_embed_copy(struct ncp_host *handle, struct ncp_host *copy);
uint32_t ncp_embed_save(struct ncp_host *handle, uint8_t *out, size_t out_len, size_t *size);
uint32_t ncp_embed_load(struct ncp_host *handle, const uint8_t *bytes, size_t bytes_len);
void ncp_embed_free(struct ncp_host *handle);
uint32_t ncp_embed_receive(struct ncp_host *handle, const uint8_t *bytes, size_t bytes_len, size_t bits, struct ncp_arrived *arrived);
uint32_t ncp_embed_next_output(struct ncp_host *handle, uint8_t *out, size_t out_len, size_t *bits);
uint32_t ncp_embed_reset(struct ncp_host *handle, uint8_t peer);
uint32_t ncp_embed_ask_send(struct ncp_host *handle, const struct which *which, uint8_t size, uint32_t room);
uint32_t ncp_embed_ask_receive(struct ncp_host *handle, const struct which *which, uint32_t room);
uint32_t ncp_embed_give(struct ncp_host *handle, const struct which *which, const uint8_t *bytes, size_t bytes_len, size_t bits);
uint32_t ncp_embed_take(struct ncp_host *handle, const struct which *which, uint32_t bytes, uint8_t *out, size_t out_len, size_t *bits);
uint32_t ncp_embed_allocate(struct ncp_host *handle, const struct which *which, uint16_t messages, uint32_t bits);
uint32_t ncp_embed_call_back(struct ncp_host *handle, const struct which *which, uint8_t fm, uint8_t fb);
uint32_t ncp_embed_interrupt(struct ncp_host *handle, const struct which *which);
uint32_t ncp_embed_close(struct ncp_host *handle, const struct which *which);
uint32_t ncp_embed_echo(struct ncp_host *handle, uint8_t peer, uint8_t byte);
uint32_t ncp_embed_wake(struct ncp_host *handle, uint8_t peer);
uint32_t ncp_embed_restart(struct ncp_host *handle, uint8_t peer);
uint32_t ncp_embed_state(struct ncp_host *handle, const struct which *which, struct ncp_connection *out);
uint32_t ncp_embed_changes(struct ncp_host *handle, const struct which *which, struct ncp_connection *seen, struct ncp_changes *out);
uint32_t ncp_embed_connection_at(struct ncp_host *handle, uint32_t place, struct which *which, struct ncp_connection *out);
uint32_t ncp_embed_room(struct ncp_host *handle, const struct which *which, uint32_t *bits);
uint32_t ncp_embed_pair_on(struct ncp_host *handle, bool sends, uint8_t link, struct which *which);
bool ncp_embed_is_held(struct ncp_host *handle, uint8_t peer, uint8_t link);
bool ncp_embed_is_open(struct ncp_host *handle, const struct which *which);
bool ncp_embed_is_up(struct ncp_host *handle, uint8_t peer);
uint32_t ncp_embed_phase(struct ncp_host *handle, uint8_t peer, struct ncp_flags *out);
uint32_t ncp_embed_echoed(struct ncp_host *handle, uint8_t peer, uint8_t *byte);
uint32_t ncp_embed_error(struct ncp_host *handle, uint8_t peer, uint32_t place, struct ncp_err_command *out);
uint32_t ncp_embed_counts(struct ncp_host *handle, uint8_t peer, struct ncp_peer_counts *out);
uint32_t ncp_embed_ignored(struct ncp_host *handle, struct ncp_ignored_counts *out);
uint32_t ncp_embed_waiting(struct ncp_host *handle, uint8_t peer, uint32_t place, uint8_t *out, size_t out_len, size_t *bytes);
uint32_t ncp_embed_kept(struct ncp_host *handle, uint8_t peer, uint8_t link, uint8_t *out, size_t out_len, size_t *bits);
uint32_t ncp_embed_unacknowledged(struct ncp_host *handle, uint8_t peer, uint32_t *what);
uint32_t ncp_embed_command(const uint8_t *bytes, size_t bytes_len, size_t bits, uint32_t place, uint8_t *out, size_t out_len, size_t *size);
uint32_t ncp_embed_subnet_new(struct ncp_subnet *net, const uint8_t *hosts, size_t hosts_len);
void ncp_embed_subnet_free(struct ncp_subnet *net);
uint32_t ncp_embed_subnet_accept(struct ncp_subnet *net, uint8_t from, const uint8_t *bytes, size_t bytes_len, size_t bits);
uint32_t ncp_embed_subnet_deliver(struct ncp_subnet *net, const struct lane *lane, uint8_t *out, size_t out_len, size_t *bits);
uint32_t ncp_embed_subnet_lose(struct ncp_subnet *net, const struct lane *lane);
uint32_t ncp_embed_subnet_dead(struct ncp_subnet *net, const struct lane *lane);
uint32_t ncp_embed_subnet_answer(struct ncp_subnet *net, const struct lane *lane, uint8_t *out, size_t out_len, size_t *bits);
uint32_t ncp_embed_name(uint32_t code, uint8_t *out, size_t out_len, size_t *bytes);

/* A function that returns an error is written as its head, as in ncp.h, and below that a row:
 *     KIND(pointers, call)
 * The kind is what the function needs first, and so the first error. Then none of these pointers may be null, and the call is made.
 * tools/tests/test_checks.py passes null for each pointer of each function, and compares the errors with those of ncp.h. */
#define ON_HOST(pointers, call) CHECKED(ncp_is_made(host), NCP_NO_HOST, pointers, call)
#define ON_SUBNET(pointers, call) CHECKED(has_subnet(subnet), NCP_NO_SUBNET, pointers, call)
#define INTO_HOST(pointers, call) CHECKED(host, NCP_NO_HOST, pointers, call) /* it may be empty */
#define INTO_SUBNET(pointers, call) CHECKED(subnet, NCP_NO_SUBNET, pointers, call)
#define ON_NEITHER(pointers, call) CHECKED(pointers, NCP_NO_POINTER, NO_OTHERS, call)
#define NO_OTHERS true

#define CHECKED(needed, or_else, pointers, call) \
    { \
        if (!(needed)) return or_else; \
        if (!(pointers)) return NCP_NO_POINTER; \
        return call; \
    }

/* Of a host too, but the call finds a connection with `peer`, whose sockets are then returned. */
#define FINDS(pointers, call) \
    { \
        struct which found = {peer, 0, 0}; \
        ON_HOST(pointers, with_sockets(call, &found, local, remote)) \
    }

/* The connection, or the link from one host to another, that the parameters name. */
#define WHICH &(struct which){peer, local, remote}
#define LANE &(struct lane){from, to, link}

bool ncp_is_made(const struct ncp_host *host)
{
    return host != NULL && host->at != NULL;
}

static bool has_subnet(const struct ncp_subnet *subnet)
{
    return subnet != NULL && subnet->at != NULL;
}

/* What a call returned, and the sockets of the connection, if it found one. */
static uint32_t with_sockets(uint32_t code, const struct which *found, uint32_t *local, uint32_t *remote)
{
    if (code != NCP_DONE) return code;
    *local = found->local;
    *remote = found->remote;
    return NCP_DONE;
}

/* A host as a whole. A copy into itself is there already. To ask for the size of a save, `out` may be null, which the library's may not. */
uint32_t ncp_new(struct ncp_host *host, uint8_t me, const uint8_t *peers, size_t count)
    INTO_HOST(peers, ncp_embed_new(host, me, peers, count))
uint32_t ncp_copy(struct ncp_host *host, struct ncp_host *copy)
    ON_HOST(copy, host == copy ? NCP_DONE : ncp_embed_copy(host, copy))
uint32_t ncp_save(struct ncp_host *host, uint8_t *out, size_t len, size_t *size)
    ON_HOST(size && (out || len == 0), ncp_embed_save(host, out ? out : (uint8_t[1]){0}, len, size))
uint32_t ncp_load(struct ncp_host *host, const uint8_t *bytes, size_t len)
    INTO_HOST(bytes, ncp_embed_load(host, bytes, len))

/* Messages. */
uint32_t ncp_receive(struct ncp_host *host, const uint8_t *bytes, size_t len, size_t bits, struct ncp_arrived *arrived)
    ON_HOST(bytes && arrived, ncp_embed_receive(host, bytes, len, bits, arrived))
uint32_t ncp_next_output(struct ncp_host *host, uint8_t *out, size_t len, size_t *bits)
    ON_HOST(out && bits, ncp_embed_next_output(host, out, len, bits))

/* Requests of its user. */
uint32_t ncp_reset(struct ncp_host *host, uint8_t peer)
    ON_HOST(NO_OTHERS, ncp_embed_reset(host, peer))
uint32_t ncp_ask_send(struct ncp_host *host, uint8_t peer, uint32_t local, uint32_t remote, uint8_t size, uint32_t room)
    ON_HOST(NO_OTHERS, ncp_embed_ask_send(host, WHICH, size, room))
uint32_t ncp_ask_receive(struct ncp_host *host, uint8_t peer, uint32_t local, uint32_t remote, uint32_t room)
    ON_HOST(NO_OTHERS, ncp_embed_ask_receive(host, WHICH, room))
uint32_t ncp_give(struct ncp_host *host, uint8_t peer, uint32_t local, uint32_t remote, const uint8_t *bytes, size_t len, size_t bits)
    ON_HOST(bytes, ncp_embed_give(host, WHICH, bytes, len, bits))
uint32_t ncp_take(struct ncp_host *host, uint8_t peer, uint32_t local, uint32_t remote, uint32_t bytes, uint8_t *out, size_t len, size_t *bits)
    ON_HOST(out && bits, ncp_embed_take(host, WHICH, bytes, out, len, bits))
uint32_t ncp_allocate(struct ncp_host *host, uint8_t peer, uint32_t local, uint32_t remote, uint16_t messages, uint32_t bits)
    ON_HOST(NO_OTHERS, ncp_embed_allocate(host, WHICH, messages, bits))
uint32_t ncp_call_back(struct ncp_host *host, uint8_t peer, uint32_t local, uint32_t remote, uint8_t fm, uint8_t fb)
    ON_HOST(NO_OTHERS, ncp_embed_call_back(host, WHICH, fm, fb))
uint32_t ncp_interrupt(struct ncp_host *host, uint8_t peer, uint32_t local, uint32_t remote)
    ON_HOST(NO_OTHERS, ncp_embed_interrupt(host, WHICH))
uint32_t ncp_close(struct ncp_host *host, uint8_t peer, uint32_t local, uint32_t remote)
    ON_HOST(NO_OTHERS, ncp_embed_close(host, WHICH))
uint32_t ncp_echo(struct ncp_host *host, uint8_t peer, uint8_t byte)
    ON_HOST(NO_OTHERS, ncp_embed_echo(host, peer, byte))
uint32_t ncp_wake(struct ncp_host *host, uint8_t peer)
    ON_HOST(NO_OTHERS, ncp_embed_wake(host, peer))
uint32_t ncp_restart(struct ncp_host *host, uint8_t peer)
    ON_HOST(NO_OTHERS, ncp_embed_restart(host, peer))

/* Readings. */
uint32_t ncp_state(struct ncp_host *host, uint8_t peer, uint32_t local, uint32_t remote, struct ncp_connection *out)
    ON_HOST(out, ncp_embed_state(host, WHICH, out))
uint32_t ncp_changes(struct ncp_host *host, uint8_t peer, uint32_t local, uint32_t remote, struct ncp_connection *seen, struct ncp_changes *out)
    ON_HOST(seen && out, ncp_embed_changes(host, WHICH, seen, out))
uint32_t ncp_connection_at(struct ncp_host *host, uint8_t peer, uint32_t place, uint32_t *local, uint32_t *remote, struct ncp_connection *out)
    FINDS(local && remote && out, ncp_embed_connection_at(host, place, &found, out))
uint32_t ncp_room(struct ncp_host *host, uint8_t peer, uint32_t local, uint32_t remote, uint32_t *bits)
    ON_HOST(bits, ncp_embed_room(host, WHICH, bits))
uint32_t ncp_pair_on(struct ncp_host *host, uint8_t peer, bool sends, uint8_t link, uint32_t *local, uint32_t *remote)
    FINDS(local && remote, ncp_embed_pair_on(host, sends, link, &found))
uint32_t ncp_phase(struct ncp_host *host, uint8_t peer, struct ncp_flags *out)
    ON_HOST(out, ncp_embed_phase(host, peer, out))
uint32_t ncp_echoed(struct ncp_host *host, uint8_t peer, uint8_t *byte)
    ON_HOST(byte, ncp_embed_echoed(host, peer, byte))
uint32_t ncp_error(struct ncp_host *host, uint8_t peer, uint32_t place, struct ncp_err_command *out)
    ON_HOST(out, ncp_embed_error(host, peer, place, out))
uint32_t ncp_counts(struct ncp_host *host, uint8_t peer, struct ncp_peer_counts *out)
    ON_HOST(out, ncp_embed_counts(host, peer, out))
uint32_t ncp_ignored(struct ncp_host *host, struct ncp_ignored_counts *out)
    ON_HOST(out, ncp_embed_ignored(host, out))
uint32_t ncp_waiting(struct ncp_host *host, uint8_t peer, uint32_t place, uint8_t *out, size_t len, size_t *bytes)
    ON_HOST(out && bytes, ncp_embed_waiting(host, peer, place, out, len, bytes))
uint32_t ncp_kept(struct ncp_host *host, uint8_t peer, uint8_t link, uint8_t *out, size_t len, size_t *bits)
    ON_HOST(out && bits, ncp_embed_kept(host, peer, link, out, len, bits))
uint32_t ncp_unacknowledged(struct ncp_host *host, uint8_t peer, uint32_t *what)
    ON_HOST(what, ncp_embed_unacknowledged(host, peer, what))

/* No host is needed. */
uint32_t ncp_command(const uint8_t *bytes, size_t len, size_t bits, uint32_t place, uint8_t *out, size_t room, size_t *size)
    ON_NEITHER(bytes && out && size, ncp_embed_command(bytes, len, bits, place, out, room, size))
uint32_t ncp_name(uint32_t code, char *out, size_t len, size_t *bytes)
    ON_NEITHER(out && bytes, ncp_embed_name(code, (uint8_t *)out, len, bytes))

/* A subnet. */
uint32_t ncp_subnet_new(struct ncp_subnet *subnet, const uint8_t *hosts, size_t count)
    INTO_SUBNET(hosts, ncp_embed_subnet_new(subnet, hosts, count))
uint32_t ncp_subnet_accept(struct ncp_subnet *subnet, uint8_t from, const uint8_t *bytes, size_t len, size_t bits)
    ON_SUBNET(bytes, ncp_embed_subnet_accept(subnet, from, bytes, len, bits))
uint32_t ncp_subnet_deliver(struct ncp_subnet *subnet, uint8_t from, uint8_t to, uint8_t link, uint8_t *out, size_t len, size_t *bits)
    ON_SUBNET(out && bits, ncp_embed_subnet_deliver(subnet, LANE, out, len, bits))
uint32_t ncp_subnet_lose(struct ncp_subnet *subnet, uint8_t from, uint8_t to, uint8_t link)
    ON_SUBNET(NO_OTHERS, ncp_embed_subnet_lose(subnet, LANE))
uint32_t ncp_subnet_dead(struct ncp_subnet *subnet, uint8_t from, uint8_t to, uint8_t link)
    ON_SUBNET(NO_OTHERS, ncp_embed_subnet_dead(subnet, LANE))
uint32_t ncp_subnet_answer(struct ncp_subnet *subnet, uint8_t from, uint8_t to, uint8_t link, uint8_t *out, size_t len, size_t *bits)
    ON_SUBNET(out && bits, ncp_embed_subnet_answer(subnet, LANE, out, len, bits))

/* By hand, since they return no error. */
void ncp_free(struct ncp_host *host)
{
    if (ncp_is_made(host)) ncp_embed_free(host);
}

bool ncp_is_held(struct ncp_host *host, uint8_t peer, uint8_t link)
{
    return ncp_is_made(host) && ncp_embed_is_held(host, peer, link);
}

bool ncp_is_open(struct ncp_host *host, uint8_t peer, uint32_t local, uint32_t remote)
{
    return ncp_is_made(host) && ncp_embed_is_open(host, WHICH);
}

bool ncp_is_up(struct ncp_host *host, uint8_t peer)
{
    return ncp_is_made(host) && ncp_embed_is_up(host, peer);
}

void ncp_subnet_free(struct ncp_subnet *subnet)
{
    if (has_subnet(subnet)) ncp_embed_subnet_free(subnet);
}

const char *ncp_word(uint32_t code)
{
    switch (code) {
    case NCP_DONE: return "Done";
    case NCP_UNKNOWN_PEER: return "UnknownPeer";
    case NCP_NOT_UP: return "NotUp";
    case NCP_BAD_SEX: return "BadSex";
    case NCP_BAD_SIZE: return "BadSize";
    case NCP_BAD_ROOM: return "BadRoom";
    case NCP_NO_ENTRY: return "NoEntry";
    case NCP_ALREADY_ASKED: return "AlreadyAsked";
    case NCP_CLOSING: return "Closing";
    case NCP_NOT_OPEN: return "NotOpen";
    case NCP_WRONG_END: return "WrongEnd";
    case NCP_NOT_WHOLE: return "NotWhole";
    case NCP_BUSY: return "Busy";
    case NCP_NO_ROOM: return "NoRoom";
    case NCP_TOO_MUCH: return "TooMuch";
    case NCP_TABLE_FULL: return "TableFull";
    case NCP_QUEUE_FULL: return "QueueFull";
    case NCP_OUT_OF_MEMORY: return "OutOfMemory";
    case NCP_NO_HOST: return "NoHost";
    case NCP_NO_POINTER: return "NoPointer";
    case NCP_SHORT_BUFFER: return "ShortBuffer";
    case NCP_NOTHING: return "Nothing";
    case NCP_NO_SUBNET: return "NoSubnet";
    case NCP_TOO_LONG: return "TooLong";
    case NCP_SHORT_BYTES: return "ShortBytes";
    case NCP_SPARE_NOT_ZERO: return "SpareNotZero";
    case NCP_NEW_BAD_PEERS: return "BadPeers";
    case NCP_NEW_OUT_OF_MEMORY: return "OutOfMemory";
    case NCP_SUBNET_NOT_REGULAR: return "NotRegular";
    case NCP_SUBNET_NO_HOST: return "NoHost";
    case NCP_SUBNET_OCCUPIED: return "Occupied";
    case NCP_LOAD_NOT_A_HOST: return "NotAHost";
    case NCP_LOAD_OTHER_VERSION: return "OtherVersion";
    case NCP_LOAD_OUT_OF_MEMORY: return "OutOfMemory";
    default: return "";
    }
}

const char *ncp_version(void)
{
    return NCP_VERSION;
}

#define SIZE_OF(name) sizeof(struct name),

const uint32_t *ncp_sizes(void)
{
    static const uint32_t sizes[] = {NCP_STRUCTS(SIZE_OF) 0};
    return sizes;
}
