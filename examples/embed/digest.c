/* Random calls, messages and saved bytes, valid and not, at two hosts, the subnet between them and a third host that comes and goes:
 * `digest COUNT` makes COUNT steps, and prints a digest of all results after some of them. Each function of ncp.h is called. The program
 * of crates/ncp_test_digest does the same through the library itself, and prints the same: there a host is used throughout, and here it
 * is replaced by its copies and by hosts loaded from its bytes. With NCP_IN all hosts are in memory of this program. */
#include "ncp.h"
#include <stdio.h>
#include <stdlib.h>
#include <string.h>

enum { A = 1, B = 2, C = 3, THIRD = 2, LINKS = 6, LONGEST_SAVE = 1 << 20, PLAIN = 5 };

/* The connection whose changes are followed at a host. */
struct followed {
    uint8_t peer;
    uint32_t local, remote;
    struct ncp_connection seen;
};

/* The digest is printed after so many steps. */
static const unsigned long printed[] = {1000, 20000, 100000, 300000, 1000000};
static const uint8_t numbers[] = {A, B, C, 4, 5, 6, 7, 8, 9, 10};
static uint64_t dice = 88172645463325252u;
static uint64_t digest = 14695981039346656037u;
static struct ncp_host hosts[3] = {NCP_EMPTY, NCP_EMPTY, NCP_EMPTY};
static struct ncp_subnet subnet = NCP_EMPTY;
static struct followed followed[2];
static uint8_t buffer[NCP_LONGEST_MESSAGE];
static uint8_t saved[LONGEST_SAVE];

static void mix(uint64_t value)
{
    digest = (digest ^ value) * 1099511628211u;
}

static uint64_t roll(void)
{
    dice ^= dice << 13;
    dice ^= dice >> 7;
    dice ^= dice << 17;
    return dice >> 16;
}

static uint64_t pick(uint64_t below)
{
    return roll() % below;
}

static bool one_in(uint64_t many)
{
    return pick(many) == 0;
}

static uint8_t byte(void)
{
    return (uint8_t)pick(256);
}

/* A byte that is mostly zero. */
static uint8_t rarely(void)
{
    return (uint8_t)(one_in(16) ? pick(256) : 0);
}

/* A number below another, but occasionally any number of 32 bits. */
static uint32_t mostly(uint64_t below, uint64_t many)
{
    uint64_t bound = one_in(many) ? 4294967296u : below;
    return (uint32_t)pick(bound);
}

/* A number that is often at a limit. */
static uint32_t edge(void)
{
    static const uint32_t edges[] = {0, 1, 2, 8, 64, 71, 72, 255, 256, 8192, 8193, 65535, 65536, 65537, 0x7fffffff, 0xffffffffu};
    uint64_t which = pick(20);
    return which < 16 ? edges[which] : (uint32_t)pick(4294967296u);
}

/* What this program itself expects. */
static void holds(bool it, const char *what)
{
    if (it) return;
    fprintf(stderr, "digest: not so: %s\n", what);
    exit(1);
}
#define HOLDS(it) holds(it, #it)

static void mix_bytes(const uint8_t *bytes, size_t len)
{
    for (size_t place = 0; place < len; place++) mix(bytes[place]);
}

static void mix_bits(const uint8_t *bytes, size_t bits)
{
    mix(bits);
    mix_bytes(bytes, (bits + 7) / 8);
}

/* A code, and what was written if it is NCP_DONE. */
static void mix_found(uint32_t code, const uint8_t *bytes, size_t bits)
{
    mix(code);
    if (code == NCP_DONE) mix_bits(bytes, bits);
}

static void mix_connection(const struct ncp_connection *it)
{
    mix(it->bits), mix(it->stored), mix(it->interrupts), mix(it->messages), mix(it->link), mix(it->size), mix(it->sends);
    mix(it->asked), mix(it->heard), mix(it->opened), mix(it->leaving), mix(it->left), mix(it->cls), mix(it->busy), mix(it->recall);
}

/* How long a buffer is: mostly long enough. */
static size_t a_room(size_t enough)
{
    return one_in(16) ? (size_t)pick(enough) : enough;
}

/* --- Memory of this program --- */

#ifdef NCP_IN
enum { LENT = 24000000 };
static uint8_t lent[4][LENT];
static unsigned third_in = 2; /* where the next third host is */

static uint32_t make_in(struct ncp_host *host, uint8_t me, const uint8_t *peers, size_t count, unsigned place)
{
    if (ncp_size(count, 0, 0) > LENT) return NCP_NEW_OUT_OF_MEMORY;
    return ncp_new_in(host, me, peers, count, lent[place], LENT);
}

/* Makes a host, in place of another that it frees. */
static uint32_t make(unsigned on, uint8_t me, const uint8_t *peers, size_t count)
{
    struct ncp_host made = NCP_EMPTY;
    uint32_t code;
    if (on != THIRD) ncp_free(&hosts[on]);
    code = make_in(&made, me, peers, count, on == THIRD ? third_in : on);
    if (code != NCP_DONE) return code;
    if (on == THIRD) third_in = 5 - third_in;
    ncp_free(&hosts[on]);
    hosts[on] = made;
    return code;
}

/* The third host is loaded into memory that has a host. */
static uint32_t load_third(const uint8_t *bytes, size_t len)
{
    const bool was_made = ncp_is_made(&hosts[THIRD]);
    uint32_t code;
    if (!was_made) HOLDS(make(THIRD, A, numbers + 1, 1) == NCP_DONE);
    code = ncp_load(&hosts[THIRD], bytes, len);
    if (code != NCP_DONE && !was_made) ncp_free(&hosts[THIRD]);
    return code;
}
#else
static uint32_t make(unsigned on, uint8_t me, const uint8_t *peers, size_t count)
{
    return ncp_new(&hosts[on], me, peers, count);
}

static uint32_t load_third(const uint8_t *bytes, size_t len)
{
    return ncp_load(&hosts[THIRD], bytes, len);
}
#endif

/* One of the two hosts as it begins: A with as many peers as can be, and B with one. The third host may be in the memory of either. */
static uint32_t begin(unsigned on)
{
    ncp_free(&hosts[THIRD]);
    return on == 0 ? make(0, A, numbers + 1, 8) : make(1, B, numbers, 1);
}

/* --- Messages --- */

static void fill(void)
{
    size_t place = 0;
    for (; place < 48; place++) buffer[place] = byte();
    for (; place < sizeof buffer; place++) buffer[place] = (uint8_t)(buffer[place - 48] + 1);
}

static void read_command(const uint8_t *bytes, size_t len, size_t bits)
{
    uint8_t command[NCP_LONGEST_COMMAND];
    uint32_t place = (uint32_t)pick(3), code;
    size_t room = a_room(sizeof command), size = 0;
    code = ncp_command(bytes, len, bits, place, command, room, &size);
    mix_found(code, command, 8 * size);
}

static void receive(unsigned on, const uint8_t *bytes, size_t len, size_t bits)
{
    struct ncp_arrived it;
    uint32_t code = ncp_receive(&hosts[on], bytes, len, bits, &it);
    mix(code);
    if (code == NCP_DONE) {
        mix(it.what), mix(it.detail), mix(it.local), mix(it.remote), mix(it.errors), mix(it.resets);
        mix(it.peer), mix(it.link), mix(it.kind);
    }
    if (one_in(2)) read_command(bytes, len, bits);
}

/* Any bits, often of a meaningful type. */
static void feed_any(unsigned on, uint8_t peer)
{
    static const uint8_t types[] = {0, 5, 7, 9, 0, 0, 4, 10};
    size_t len, bits;
    fill();
    buffer[0] = types[pick(8)];
    buffer[1] = peer;
    buffer[2] = (uint8_t)pick(5);
    if (one_in(2)) {
        buffer[4] = 0;
        buffer[5] = one_in(8) ? byte() : 8;
        buffer[6] = 0;
        buffer[7] = (uint8_t)pick(24);
        buffer[8] = 0;
        buffer[9] = (uint8_t)pick(15);
    }
    len = (size_t)pick(49);
    bits = one_in(4) ? (size_t)pick(400) : 8 * len;
    receive(on, buffer, len, bits);
}

/* A control message of one to three commands, with small numbers in them; few are resets. A byte that is 0 in all of them occasionally is not. */
static void feed_commands(unsigned on, uint8_t peer)
{
    static const uint8_t zeros[] = {0, 2, 4, 8};
    static const uint8_t lengths[] = {1, 10, 10, 9, 8, 4, 8, 2, 2, 2, 2, 12, 1, 1};
    uint8_t bytes[48] = {0};
    size_t len = 9;
    bytes[1] = peer;
    bytes[5] = 8;
    for (uint64_t left = 1 + pick(3); left > 0; left--) {
        uint8_t code = (uint8_t)pick(14);
        size_t from = len;
        if (code == 12 && !one_in(16)) code = 13;
        bytes[len] = code;
        len += lengths[code];
        if (code >= 1 && code <= 3) {
            uint8_t sockets = (uint8_t)(2 + 2 * pick(3));
            bytes[from + 1] = rarely();
            bytes[from + 4] = (uint8_t)(sockets + pick(2));
            bytes[from + 7] = rarely();
            bytes[from + 8] = (uint8_t)(sockets + pick(2));
            if (code != 3) bytes[from + 9] = (uint8_t)(one_in(2) ? 8 : pick(80));
        } else if (code >= 4 && code <= 11) {
            bytes[from + 1] = (uint8_t)(one_in(8) ? byte() : pick(LINKS));
            if (code == 4 || code == 6) {
                bytes[from + 2] = rarely();
                bytes[from + 3] = (uint8_t)pick(4);
                bytes[from + 5] = rarely();
                bytes[from + 6] = (uint8_t)pick(4);
                bytes[from + 7] = byte();
            } else if (code == 5) {
                bytes[from + 2] = byte();
                bytes[from + 3] = byte();
            }
        }
    }
    bytes[7] = (uint8_t)(len - 9);
    if (one_in(8)) {
        size_t place = zeros[pick(4)];
        bytes[place] = (uint8_t)(1u << pick(8));
    }
    receive(on, bytes, sizeof bytes, 8 * len);
}

/* A text on a link. */
static void feed_text(unsigned on, uint8_t peer)
{
    size_t len = (size_t)pick(24), bits;
    fill();
    buffer[0] = 0;
    buffer[1] = peer;
    buffer[2] = (uint8_t)(2 + pick(4));
    buffer[3] = 0;
    buffer[4] = 0;
    buffer[5] = (uint8_t)(one_in(8) ? pick(37) : 8);
    buffer[6] = 0;
    buffer[7] = (uint8_t)len;
    buffer[8] = 0;
    bits = 72 + (size_t)buffer[5] * len;
    if ((bits & 7) != 0) buffer[bits / 8] = 0;
    receive(on, buffer, sizeof buffer, bits);
}

static void feed(unsigned on, uint8_t peer)
{
    uint64_t which = pick(4);
    if (which == 0) feed_any(on, peer);
    else if (which == 1) feed_text(on, peer);
    else feed_commands(on, peer);
}

static void answer(unsigned on, uint8_t type, uint8_t peer, uint8_t link)
{
    const uint8_t leader[4] = {type, peer, link, 0};
    receive(on, leader, sizeof leader, 32);
}

/* --- The subnet --- */

/* The message on a link is lost, or finds its destination dead, or is delivered, and spoiled occasionally; mostly it is answered. With the
 * luck PLAIN it is delivered and answered. */
static void pass(uint8_t from, uint8_t to, uint8_t link, uint64_t luck)
{
    uint8_t message[NCP_LONGEST_MESSAGE] = {0};
    size_t bits = 0, room = a_room(sizeof message), spoiled = (size_t)pick(128);
    uint32_t code;
    if (luck == 1) {
        mix(ncp_subnet_lose(&subnet, from, to, link));
    } else if (luck == 2) {
        mix(ncp_subnet_dead(&subnet, from, to, link));
    } else {
        code = ncp_subnet_deliver(&subnet, from, to, link, message, room, &bits);
        mix_found(code, message, bits);
        if (luck == 3) message[spoiled] ^= (uint8_t)(1u << pick(8));
        if (code == NCP_DONE && (to == A || to == B)) receive(to - A, message, sizeof message, bits);
    }
    if (luck == 4) return;
    code = ncp_subnet_answer(&subnet, from, to, link, message, room, &bits);
    mix_found(code, message, bits);
    if (code == NCP_DONE && (from == A || from == B)) receive(from - A, message, 4, bits);
}

/* The next message of a host goes to the subnet, if the subnet accepts it; else it is answered as if its destination were dead. */
static void carry_with(unsigned on, size_t room, uint64_t luck)
{
    uint8_t message[NCP_LONGEST_MESSAGE] = {0};
    size_t bits = 0;
    uint32_t code = ncp_next_output(&hosts[on], message, room, &bits);
    mix_found(code, message, bits);
    if (code != NCP_DONE) return;
    code = ncp_subnet_accept(&subnet, (uint8_t)(A + on), message, sizeof message, bits);
    mix(code);
    if (code != NCP_DONE) answer(on, luck < 4 ? 9 : 7, message[1], message[2]);
    else if (luck > 0) pass((uint8_t)(A + on), message[1], message[2], luck);
}

static void carry(unsigned on)
{
    size_t room = a_room(NCP_LONGEST_MESSAGE);
    carry_with(on, room, pick(48));
}

/* What is in transit between the two hosts arrives, and some messages of each. */
static void exchange(void)
{
    for (uint8_t link = 0; link < LINKS; link++) {
        pass(A, B, link, PLAIN);
        pass(B, A, link, PLAIN);
    }
    for (unsigned each = 0; each < 12; each++) carry_with(each % 2, NCP_LONGEST_MESSAGE, PLAIN);
}

/* Any message in transit, and bits that no host sends. */
static void move(unsigned on)
{
    uint8_t from = (uint8_t)(A + pick(3)), to = (uint8_t)(A + pick(3)), link = (uint8_t)pick(LINKS);
    size_t len;
    if (!one_in(4)) {
        pass(from, to, link, pick(16));
        return;
    }
    fill();
    buffer[0] = (uint8_t)pick(2);
    buffer[1] = to;
    buffer[2] = link;
    len = (size_t)pick(40);
    mix(ncp_subnet_accept(&subnet, (uint8_t)(A + on), buffer, len, 8 * len));
}

/* --- Calls --- */

static void ask(unsigned on, uint8_t peer, uint32_t local, uint32_t remote, uint64_t which)
{
    struct ncp_host *host = &hosts[on];
    if (which == 0) {
        uint64_t luck = pick(128);
        if (luck == 0) mix(ncp_reset(host, peer));
        else if (luck < 8) mix(ncp_restart(host, peer));
        else mix(ncp_is_up(host, peer) ? ncp_wake(host, peer) : ncp_reset(host, peer));
    } else if (which == 1) {
        uint8_t size = (uint8_t)(one_in(4) ? pick(37) : 8);
        mix(ncp_ask_send(host, peer, local, remote, size, one_in(8) ? edge() : mostly(16384, 8)));
    } else if (which == 2) {
        mix(ncp_ask_receive(host, peer, local, remote, one_in(8) ? edge() : mostly(16384, 8)));
    } else if (which == 3) {
        uint16_t messages = (uint16_t)(one_in(8) ? edge() & 65535 : pick(4));
        mix(ncp_allocate(host, peer, local, remote, messages, one_in(4) ? 0 : mostly(2000, 16)));
    } else if (which == 4) {
        uint8_t messages = byte();
        mix(ncp_call_back(host, peer, local, remote, messages, byte()));
    } else if (which == 5) {
        mix(ncp_interrupt(host, peer, local, remote));
    } else {
        mix(one_in(16) ? ncp_close(host, peer, local, remote) : ncp_echo(host, peer, byte()));
    }
}

/* Many requests to one peer: until its table, its links or its queue is full. */
static void ask_often(unsigned on, uint8_t peer)
{
    struct ncp_host *host = &hosts[on];
    uint32_t sockets = (uint32_t)(100 + 200 * pick(2)), count = (uint32_t)pick(80);
    bool sends = one_in(2);
    for (uint32_t each = 0; each < count; each++) {
        uint32_t even = sockets + 2 * each;
        mix(sends ? ncp_ask_send(host, peer, even + 1, even, 8, 64) : ncp_ask_receive(host, peer, even, even + 1, 64));
    }
}

static void give(unsigned on, uint8_t peer, uint32_t local, uint32_t remote)
{
    size_t len = one_in(8) ? (size_t)pick(1025) : sizeof buffer, bits;
    fill();
    bits = one_in(4) ? (size_t)pick(9000) : 8 * (size_t)pick(40);
    if ((bits & 7) != 0 && bits / 8 < sizeof buffer && !one_in(8)) buffer[bits / 8] = 0;
    mix(ncp_give(&hosts[on], peer, local, remote, buffer, len, bits));
}

static void take(unsigned on, uint8_t peer, uint32_t local, uint32_t remote)
{
    uint8_t text[NCP_LONGEST_MESSAGE];
    size_t room = a_room(sizeof text), bits = 0;
    uint32_t code = ncp_take(&hosts[on], peer, local, remote, mostly(200, 8), text, room, &bits);
    mix_found(code, text, bits);
}

/* --- Readers --- */

static void read_state(struct ncp_host *host, uint8_t peer, uint32_t local, uint32_t remote)
{
    struct ncp_connection it;
    uint32_t code = ncp_state(host, peer, local, remote, &it), bits = 0;
    mix(code);
    if (code == NCP_DONE) mix_connection(&it);
    code = ncp_room(host, peer, local, remote, &bits);
    mix(code);
    mix(bits);
    mix(ncp_is_open(host, peer, local, remote));
}

/* Another connection is followed. */
static void follow(unsigned on, uint8_t peer, uint32_t local, uint32_t remote)
{
    struct followed *it = &followed[on];
    memset(it, 0, sizeof *it);
    it->peer = peer, it->local = local, it->remote = remote;
}

static void read_followed(unsigned on)
{
    struct followed *it = &followed[on];
    struct ncp_changes out;
    uint32_t code = ncp_changes(&hosts[on], it->peer, it->local, it->remote, &it->seen, &out);
    mix(code);
    if (code != NCP_DONE) return;
    mix(out.closed), mix(out.refused), mix(out.ended), mix(out.asks), mix(out.opened), mix(out.text), mix(out.allowed), mix(out.delivered);
    mix(out.interrupted), mix(out.closes);
    mix_connection(&it->seen);
}

static void read_changes(unsigned on, uint8_t peer, uint32_t local, uint32_t remote)
{
    if (one_in(8)) follow(on, peer, local, remote);
    read_followed(on);
}

static void read_list(struct ncp_host *host, uint8_t peer)
{
    struct ncp_connection it;
    uint32_t place = (uint32_t)(one_in(8) ? pick(70) : pick(6)), local = 0, remote = 0, code = ncp_connection_at(host, peer, place, &local, &remote, &it);
    mix(code);
    mix(local);
    mix(remote);
    if (code == NCP_DONE) mix_connection(&it);
}

static void read_links(struct ncp_host *host, uint8_t peer)
{
    bool sends = one_in(2);
    uint8_t link = (uint8_t)(one_in(8) ? byte() : pick(LINKS));
    uint32_t local = 0, remote = 0;
    mix(ncp_pair_on(host, peer, sends, link, &local, &remote));
    mix(local);
    mix(remote);
    mix(ncp_is_held(host, peer, link));
}

static void read_phase(struct ncp_host *host, uint8_t peer)
{
    struct ncp_flags it;
    uint8_t answered = 0;
    uint32_t code = ncp_phase(host, peer, &it);
    mix(code);
    if (code == NCP_DONE) mix(it.down), mix(it.want), mix(it.owe), mix(it.wait);
    mix(ncp_is_up(host, peer));
    mix(ncp_echoed(host, peer, &answered));
    mix(answered);
}

static void read_counts(struct ncp_host *host, uint8_t peer)
{
    struct ncp_peer_counts it;
    struct ncp_ignored_counts ignored;
    uint32_t code = ncp_counts(host, peer, &it);
    mix(code);
    if (code == NCP_DONE) mix(it.stray), mix(it.faults), mix(it.wrong_link), mix(it.wrong_size), mix(it.not_up), mix(it.late), mix(it.over);
    code = ncp_ignored(host, &ignored);
    mix(code);
    if (code == NCP_DONE) mix(ignored.short_bits), mix(ignored.other), mix(ignored.unknown);
}

static void read_error(struct ncp_host *host, uint8_t peer)
{
    struct ncp_err_command it;
    uint32_t code = ncp_error(host, peer, (uint32_t)pick(18), &it);
    mix(code);
    if (code != NCP_DONE) return;
    mix(it.code);
    mix_bytes(it.bytes, sizeof it.bytes);
}

static void read_queue(struct ncp_host *host, uint8_t peer)
{
    uint8_t command[NCP_LONGEST_COMMAND], message[NCP_LONGEST_MESSAGE];
    size_t room = a_room(sizeof command), size = 0;
    uint32_t what = 0, place = (uint32_t)(one_in(8) ? pick(300) : pick(4)), code = ncp_waiting(host, peer, place, command, room, &size);
    uint8_t link = (uint8_t)(one_in(8) ? byte() : pick(LINKS));
    mix_found(code, command, 8 * size);
    room = a_room(sizeof message);
    code = ncp_kept(host, peer, link, message, room, &size);
    mix_found(code, message, size);
    mix(ncp_unacknowledged(host, peer, &what));
    mix(what);
}

static void read_name(void)
{
    uint8_t name[NCP_LONGEST_NAME];
    uint32_t number = mostly(100, 16), code;
    size_t room = a_room(sizeof name), size = 0;
    const char *word = ncp_word(number);
    code = ncp_name(number, (char *)name, room, &size);
    mix_found(code, name, 8 * size);
    HOLDS((code == NCP_NOTHING) == (*word == 0));
    if (code == NCP_DONE) HOLDS(strlen(word) == size && memcmp(word, name, size) == 0);
}

static void read_any(unsigned on, uint8_t peer, uint32_t local, uint32_t remote, uint64_t which)
{
    struct ncp_host *host = &hosts[on];
    if (which == 0) read_state(host, peer, local, remote);
    else if (which == 1) read_list(host, peer);
    else if (which == 2) read_links(host, peer);
    else if (which == 3) read_phase(host, peer);
    else if (which == 4) read_counts(host, peer);
    else if (which == 5) read_error(host, peer);
    else if (which == 6) read_queue(host, peer);
    else read_name();
}

/* --- Saved bytes, and the third host --- */

static size_t save(struct ncp_host *host)
{
    size_t size = 0, again = 0;
    HOLDS(ncp_save(host, saved, sizeof saved, &size) == NCP_DONE);
    if (one_in(16)) HOLDS(ncp_save(host, saved, (size_t)pick(size), &again) == NCP_SHORT_BUFFER && again == size);
    return size;
}

/* Whether there is a host, and the bytes that it is saved as: how many. */
static size_t mix_saved(struct ncp_host *host)
{
    size_t size;
    mix(ncp_is_made(host));
    if (!ncp_is_made(host)) return 0;
    size = save(host);
    mix(size);
    mix_bytes(saved, size);
    return size;
}

/* Spoils saved bytes at some places, in their number too. */
static size_t spoil(size_t len)
{
    for (uint64_t times = one_in(2) ? 1 : 1 + pick(3); times > 0; times--) {
        uint64_t how = pick(8);
        size_t at = (size_t)pick(len);
        if (how < 3) {
            saved[at] ^= (uint8_t)(1u << pick(8));
        } else if (how == 3) {
            saved[at] = (uint8_t)edge();
        } else if (how == 4 && at + 4 <= len) {
            uint32_t number = edge();
            saved[at] = (uint8_t)(number >> 24), saved[at + 1] = (uint8_t)(number >> 16), saved[at + 2] = (uint8_t)(number >> 8), saved[at + 3] = (uint8_t)number;
        } else if (how == 5 && at + 2 <= len) {
            uint32_t number = edge();
            saved[at] = (uint8_t)(number >> 8), saved[at + 1] = (uint8_t)number;
        } else if (how == 6 && len + 1 < sizeof saved) {
            saved[len] = byte();
            len++;
        } else if (how == 7 && at > 0 && one_in(4)) {
            len = at;
        }
    }
    return len;
}

/* The third host is what spoiled bytes of a host are, if they are any. */
static void load(unsigned on)
{
    size_t len;
    uint32_t code;
    if (hosts[on].at == NULL) return;
    len = spoil(save(&hosts[on]));
    code = load_third(saved, len);
    mix(code);
    if (code == NCP_DONE) mix_saved(&hosts[THIRD]);
}

static void load_some(void)
{
    for (uint64_t times = 1 + pick(3); times > 0; times--) load((unsigned)pick(3));
}

/* The third host sends, receives, is asked and read. */
static void play_third(uint8_t peer, uint32_t local, uint32_t remote)
{
    struct ncp_host *host = &hosts[THIRD];
    uint8_t message[NCP_LONGEST_MESSAGE];
    size_t bits = 0;
    uint32_t code;
    uint64_t which = pick(4);
    if (which == 0) {
        code = ncp_next_output(host, message, sizeof message, &bits);
        mix_found(code, message, bits);
    } else if (which == 1) {
        feed(THIRD, peer);
    } else if (which == 2) {
        ask(THIRD, peer, local, remote, 1 + pick(6));
    } else {
        read_any(THIRD, peer, local, remote, pick(7));
    }
}

/* Hosts are made, copied and freed, and the subnet too. */
static void live(unsigned on)
{
    uint64_t which = pick(16);
    if (which < 4) {
        mix(ncp_copy(&hosts[on], &hosts[THIRD]));
    } else if (which < 8) {
        uint8_t me = (uint8_t)pick(12);
        size_t from = (size_t)pick(2);
        mix(make(THIRD, me, numbers + from, (size_t)pick(10 - from)));
    } else if (which == 8) {
        ncp_free(&hosts[THIRD]);
    } else if (which < 12) {
        mix_saved(&hosts[THIRD]);
    } else if (which == 12) {
        if (one_in(16)) mix(begin(on));
    } else if (which == 13) {
        if (one_in(64)) ncp_subnet_free(&subnet);
    } else if (which == 14) {
        if (one_in(4)) mix(ncp_subnet_new(&subnet, numbers, 3));
    } else {
        if (one_in(4)) ask_often(on, (uint8_t)(one_in(4) ? (unsigned)C : B - on));
    }
}

/* --- Talk --- */

/* The receiver of a connection, and its sender: which hosts they are, and the receiver's socket; the sender's is the next. */
struct pair {
    unsigned receiver, sender;
    uint32_t socket;
};

static void read_both(struct pair it)
{
    read_followed(it.receiver);
    read_followed(it.sender);
}

static void open(struct pair it)
{
    const uint8_t from = (uint8_t)(A + it.sender), to = (uint8_t)(A + it.receiver);
    uint8_t size = (uint8_t)(one_in(4) ? 1 + pick(36) : 8);
    if (!ncp_is_up(&hosts[it.receiver], from)) mix(ncp_reset(&hosts[it.receiver], from));
    exchange();
    mix(ncp_ask_receive(&hosts[it.receiver], from, it.socket, it.socket + 1, 32768));
    mix(ncp_ask_send(&hosts[it.sender], to, it.socket + 1, it.socket, size, 32768));
    exchange();
    follow(it.receiver, from, it.socket, it.socket + 1);
    follow(it.sender, to, it.socket + 1, it.socket);
    read_both(it);
}

/* The receiver allows text, occasionally no bits of it; the sender gives some, of whole bytes of most sizes; and the receiver takes some. */
static void pass_text(struct pair it)
{
    const uint8_t from = (uint8_t)(A + it.sender), to = (uint8_t)(A + it.receiver);
    uint16_t messages = (uint16_t)pick(6);
    mix(ncp_allocate(&hosts[it.receiver], from, it.socket, it.socket + 1, messages, (uint32_t)(one_in(4) ? 0 : pick(16384))));
    exchange();
    read_both(it);
    for (uint64_t times = 1 + pick(3); times > 0; times--) {
        fill();
        mix(ncp_give(&hosts[it.sender], to, it.socket + 1, it.socket, buffer, sizeof buffer, 360 * (size_t)pick(23)));
    }
    exchange();
    read_both(it);
    for (uint64_t times = 1 + pick(2); times > 0; times--) take(it.receiver, from, it.socket, it.socket + 1);
    read_both(it);
}

/* The two hosts exchange texts on one of some connections. */
static void talk(unsigned on)
{
    struct pair it = {on, 1 - on, (uint32_t)(2 + 2 * pick(3))};
    it.socket += (uint32_t)(65536 * pick(3));
    open(it);
    for (uint64_t times = 1 + pick(2); times > 0; times--) pass_text(it);
}

/* --- Steps --- */

static uint8_t peer_for(unsigned on)
{
    if (one_in(8)) return byte();
    if (on == 1) return A;
    if (one_in(8)) return (uint8_t)(4 + pick(6));
    return one_in(8) ? C : B;
}

/* A connection that the host has with a peer, if there is one at some index. */
static void find_known(unsigned on, uint8_t peer, uint32_t *local, uint32_t *remote)
{
    struct ncp_connection it;
    uint32_t here, there;
    if (ncp_connection_at(&hosts[on], peer, (uint32_t)pick(4), &here, &there, &it) != NCP_DONE) return;
    *local = here;
    *remote = there;
}

static void step(void)
{
    unsigned on = (unsigned)pick(2);
    uint8_t peer = peer_for(on);
    uint32_t sockets = (uint32_t)(2 + 2 * (one_in(16) ? pick(160) : pick(3)));
    uint32_t high = (uint32_t)(one_in(8) ? 65536 * pick(65536) : 0);
    uint32_t local = high + sockets + (uint32_t)pick(2);
    uint32_t remote = one_in(8) ? high + sockets + mostly(2, 64) : local ^ 1;
    uint64_t which = pick(64);
    if (one_in(2)) find_known(on, peer, &local, &remote);
    if (which < 21) ask(on, peer, local, remote, which % 7);
    else if (which < 26) give(on, peer, local, remote);
    else if (which < 28) take(on, peer, local, remote);
    else if (which < 36) read_any(on, peer, local, remote, which - 28);
    else if (which < 38) read_changes(on, peer, local, remote);
    else if (which < 41) feed(on, peer);
    else if (which < 43) load_some();
    else if (which < 45) play_third(peer, local, remote);
    else if (which < 46) live(on);
    else if (which < 48) move(on);
    else if (which < 50) talk(on);
    else carry(on);
}

/* A host is saved, and the host that is loaded from its bytes takes its place; or its copy does. What is answered from then on is to be
 * what it would have answered. */
static void look(unsigned on, bool copies)
{
    struct ncp_host copy = NCP_EMPTY;
    size_t size = mix_saved(&hosts[on]);
    if (copies) {
        HOLDS(ncp_copy(&hosts[on], &copy) == NCP_DONE);
        ncp_free(&hosts[on]);
        hosts[on] = copy;
    } else {
        HOLDS(ncp_load(&hosts[on], saved, size) == NCP_DONE);
    }
}

/* What the library says of itself. */
static void look_at_library(void)
{
#define SIZE_OF(name) sizeof(struct name),
    const size_t sizes[] = {NCP_STRUCTS(SIZE_OF) 0};
    for (size_t each = 0; each < sizeof sizes / sizeof *sizes; each++) HOLDS(ncp_sizes()[each] == sizes[each]);
    HOLDS(strcmp(ncp_version(), NCP_VERSION) == 0);
}

int main(int argc, char **argv)
{
    unsigned long count = argc > 1 ? strtoul(argv[1], NULL, 10) : 0;
    size_t next = 0;
    look_at_library();
    for (unsigned on = 0; on < 2; on++) HOLDS(begin(on) == NCP_DONE);
    HOLDS(ncp_subnet_new(&subnet, numbers, 3) == NCP_DONE);
    for (unsigned long made = 1; made <= count; made++) {
        step();
        if (made % 100 == 0) look(made / 100 % 2, made / 200 % 2 == 0);
        if (next < sizeof printed / sizeof *printed && made == printed[next]) {
            printf("%lu %016llx\n", made, (unsigned long long)digest);
            next++;
        }
    }
    for (unsigned on = 0; on < 3; on++) ncp_free(&hosts[on]);
    ncp_subnet_free(&subnet);
    return 0;
}
