/* Random calls on the library, and ncp_load of spoiled bytes: `calls SEED INPUTS`. What is refused has to change nothing, what is loaded
 * to be saved as the same bytes, and each answer to have a name. Every buffer has just the bytes that are said of it, so that a tool
 * which looks at memory sees each byte beyond. It prints a digest of all that was answered. */
#include "ncp.h"
#include "ncp_capture.h"
#include "ncp_events.h"
#include "dice.h"
#define SIZE_OF(name) sizeof(struct name),

/* The first three hosts have their places as numbers and one another as peers; the last is any. */
enum { TALK = 3, HOSTS = 4, MARK = 0xa5, KEPT = 16, LONGEST_SAVE = 65536, MOST_EVENTS = 4096 };

struct save {
    uint8_t *bytes;
    size_t len;
};

static struct ncp_host hosts[HOSTS], *host;
static struct ncp_subnet subnet;
static struct ncp_watch watches[HOSTS];
static struct save kept[KEPT], before;
static unsigned long loads, loaded;
static FILE *file;

struct tried {
    size_t is_there;
    void *block;
};
struct tried rattle_alloc(size_t bytes, size_t alignment);
struct tried rattle_realloc(void *block, size_t kept, size_t bytes, size_t alignment);
void rattle_dealloc(void *block);

static uint8_t *block_of(size_t len)
{
    uint8_t *bytes = (uint8_t *)malloc(len > 0 ? len : 1);
    if (bytes == NULL) abort();
    return bytes;
}

/* What a host is saved as. */
static struct save saved(struct ncp_host *it)
{
    struct save save = {NULL, 0};
    size_t size = 0;
    HOLDS(ncp_save(it, NULL, 0, &save.len) == NCP_SHORT_BUFFER);
    save.bytes = block_of(save.len);
    HOLDS(ncp_save(it, save.bytes, save.len, &size) == NCP_DONE && size == save.len);
    return save;
}

static bool are_same(struct save one, struct save other)
{
    return one.len == other.len && memcmp(one.bytes, other.bytes, one.len) == 0;
}

/* An answer: it has a name, and if it is a refusal the host is as it was. */
static uint32_t answered(uint32_t code)
{
    HOLDS(*ncp_word(code) != 0);
    mix(code);
    if (code == NCP_DONE) {
        free(before.bytes), before.bytes = NULL;
    } else if (before.bytes != NULL) {
        struct save after = saved(host);
        HOLDS(are_same(before, after));
        free(after.bytes);
    }
    return code;
}

/* Mostly one of the two that a host talks with. */
static uint8_t a_peer(void)
{
    return (uint8_t)(one_in(16) ? pick(256) : 1 + ((uint64_t)(host - hosts) + 1 + pick(TALK - 1)) % TALK);
}

static uint32_t a_socket(void)
{
    return one_in(16) ? edge() : (uint32_t)(2 + pick(6));
}

static uint8_t a_link(void)
{
    return (uint8_t)(one_in(16) ? pick(256) : pick(6));
}

/* A control message, a text or an answer of a peer, mostly one that says something. */
static size_t a_message(uint8_t *bytes)
{
    static const uint8_t lengths[] = {1, 10, 10, 9, 8, 4, 8, 2, 2, 2, 2, 12, 1, 1};
    size_t len = 9;
    bytes[0] = one_in(3) ? (uint8_t)(5 + 2 * pick(3)) : 0, bytes[1] = a_peer(), bytes[2] = one_in(2) ? 0 : a_link(), bytes[3] = 0;
    bytes[4] = 0, bytes[5] = 8, bytes[6] = 0, bytes[7] = 0, bytes[8] = 0;
    if (bytes[0] != 0) return 4;
    for (uint64_t commands = bytes[2] == 0 ? 1 + pick(3) : 0; commands > 0; commands--) {
        const uint8_t any = (uint8_t)pick(14), code = any == 12 && !one_in(8) ? 0 : any, from = (uint8_t)len; /* few resets */
        bytes[len++] = code;
        for (; len < (size_t)from + lengths[code]; len++) bytes[len] = 0;
        if (code >= 1 && code <= 3) bytes[from + 4] = (uint8_t)a_socket(), bytes[from + 8] = (uint8_t)a_socket();
        if (code == 1 || code == 2) bytes[from + 9] = (uint8_t)(one_in(4) ? pick(256) : one_in(2) ? 8 : a_link());
        if (code >= 4 && code <= 11) bytes[from + 1] = a_link();
        if (code == 4) bytes[from + 3] = (uint8_t)pick(4), bytes[from + 6] = (uint8_t)pick(4), bytes[from + 7] = (uint8_t)pick(256);
    }
    if (bytes[2] != 0) for (uint64_t text = pick(24); text > 0; text--) bytes[len++] = (uint8_t)pick(256);
    bytes[7] = (uint8_t)(len - 9);
    return len;
}

static void look_at(const struct ncp_arrived *arrived)
{
    HOLDS(arrived->what >= NCP_ARRIVED_SHORT && arrived->what <= NCP_ARRIVED_NOT_UP);
    mix(arrived->what), mix(arrived->detail), mix(arrived->local), mix(arrived->remote), mix(arrived->errors), mix(arrived->resets);
    mix(arrived->peer), mix(arrived->link), mix(arrived->kind);
}

static void receive(void)
{
    uint8_t room[2 * NCP_LONGEST_MESSAGE] = {0};
    size_t len = a_message(room);
    if (one_in(4)) len = spoil(room, len, sizeof room - 16);
    if (one_in(64)) len = (size_t)pick(sizeof room);
    uint8_t *bytes = block_of(len);
    size_t bits = one_in(8) ? (size_t)edge() : 8 * len;
    struct ncp_arrived arrived;
    memcpy(bytes, room, len);
    if (answered(ncp_receive(host, one_in(256) ? NULL : bytes, len, bits, &arrived)) == NCP_DONE) look_at(&arrived);
    for (uint32_t place = 0; place < 4; place++) {
        uint8_t *command = block_of(NCP_LONGEST_COMMAND);
        size_t size = 0;
        if (answered(ncp_command(bytes, len, bits, place, command, NCP_LONGEST_COMMAND, &size)) == NCP_DONE) HOLDS(size >= 1 && size <= NCP_LONGEST_COMMAND);
        free(command);
    }
    free(bytes);
}

/* A buffer for an answer, mostly long enough. */
static size_t a_room(size_t enough)
{
    return one_in(8) ? (size_t)pick(enough + 2) : enough + (size_t)pick(3);
}

/* What a function wrote: bits with zeros after them, or nothing if it refused. */
static void look_at_bits(uint32_t code, const uint8_t *out, size_t len, const size_t *size)
{
    const size_t bits = *size;
    if (code != NCP_DONE) {
        HOLDS(bits == MARK);
        for (size_t place = 0; place < len; place++) HOLDS(out[place] == MARK);
        return;
    }
    HOLDS((bits + 7) / 8 <= len);
    if (bits % 8 != 0) HOLDS((uint8_t)(out[bits / 8] << bits % 8) == 0);
    mix(bits);
    for (size_t place = 0; place < (bits + 7) / 8; place++) mix(out[place]);
}

/* A message that goes out comes to the host that it names, mostly, and is answered, mostly. */
static void carry(const uint8_t *message, size_t bits)
{
    static const uint8_t types[] = {NCP_TYPE_RFNM, NCP_TYPE_RFNM, NCP_TYPE_RFNM, NCP_TYPE_INCOMPLETE, NCP_TYPE_DESTINATION_DEAD};
    const size_t len = (bits + 7) / 8, to = message[1];
    const uint8_t answer[4] = {types[pick(sizeof types)], message[1], message[2], 0};
    struct ncp_arrived arrived;
    uint8_t *copy;
    if (len < sizeof answer) return; /* shorter than a leader: what is out is not judged in the bytes of a host that is loaded */
    copy = block_of(len);
    memcpy(copy, message, len);
    HOLDS(ncp_capture_message(file, NCP_TO_IMP, 1, copy, bits));
    if (one_in(4)) answered(ncp_subnet_accept(&subnet, (uint8_t)(host - hosts + 1), copy, len, bits));
    copy[1] = one_in(16) ? a_peer() : (uint8_t)(host - hosts + 1);
    if (answer[0] == NCP_TYPE_RFNM && to >= 1 && to <= TALK && ncp_receive(&hosts[to - 1], copy, len, bits, &arrived) == NCP_DONE) look_at(&arrived);
    if (!one_in(16)) answered(ncp_receive(host, answer, sizeof answer, 32, &arrived));
    free(copy);
}

static void next_output(void)
{
    size_t len = a_room(NCP_LONGEST_MESSAGE), bits = MARK;
    uint8_t *out = block_of(len);
    memset(out, MARK, len);
    uint32_t code = answered(ncp_next_output(host, out, len, &bits));
    look_at_bits(code, out, len, &bits);
    if (code == NCP_DONE) carry(out, bits);
    free(out);
}

static void give(uint8_t peer, uint32_t local, uint32_t remote)
{
    size_t len = one_in(16) ? (size_t)pick(1100) : (size_t)pick(20);
    uint8_t *bytes = block_of(len);
    for (size_t place = 0; place < len; place++) bytes[place] = (uint8_t)pick(256);
    answered(ncp_give(host, peer, local, remote, one_in(256) ? NULL : bytes, len, one_in(8) ? (size_t)edge() : 8 * len));
    free(bytes);
}

static void take(uint8_t peer, uint32_t local, uint32_t remote)
{
    size_t len = a_room(NCP_LONGEST_MESSAGE), bits = MARK;
    uint8_t *out = block_of(len);
    memset(out, MARK, len);
    look_at_bits(answered(ncp_take(host, peer, local, remote, one_in(4) ? edge() : UINT32_MAX, out, len, &bits)), out, len, &bits);
    free(out);
}

/* A call that fits the end of a connection that this socket is: an odd one sends. */
static void fitting(uint8_t peer, uint32_t local, uint32_t remote)
{
    const uint64_t which = pick(8);
    if (which == 0) answered(ncp_interrupt(host, peer, local, remote));
    else if (which == 1 && one_in(4)) answered(ncp_close(host, peer, local, remote));
    else if (which < 4 && local % 2 != 0) answered(ncp_ask_send(host, peer, local, remote, one_in(4) ? (uint8_t)pick(40) : 8, 512));
    else if (which < 4) answered(ncp_ask_receive(host, peer, local, remote, 512));
    else if (local % 2 != 0) give(peer, local, remote);
    else if (which < 6) answered(ncp_allocate(host, peer, local, remote, (uint16_t)pick(4), (uint32_t)pick(300)));
    else if (which == 6 && one_in(4)) answered(ncp_call_back(host, peer, local, remote, (uint8_t)pick(256), (uint8_t)pick(256)));
    else take(peer, local, remote);
}

/* Any call. */
static void ask(uint8_t peer, uint32_t local, uint32_t remote)
{
    const uint64_t which = pick(12);
    if (which == 0) answered(ncp_is_up(host, peer) && !one_in(64) ? ncp_wake(host, peer) : ncp_reset(host, peer));
    else if (which == 1) answered(ncp_restart(host, peer));
    else if (which == 2) answered(ncp_ask_send(host, peer, local, remote, (uint8_t)edge(), edge()));
    else if (which == 3) answered(ncp_ask_receive(host, peer, local, remote, edge()));
    else if (which == 4) answered(ncp_allocate(host, peer, local, remote, (uint16_t)edge(), edge()));
    else if (which == 5) answered(ncp_echo(host, peer, (uint8_t)pick(256)));
    else fitting(peer, local, remote);
}

/* What a host says of itself, which changes nothing. */
static void read_out(uint8_t peer, uint32_t local, uint32_t remote)
{
    struct ncp_connection it;
    struct ncp_changes changes;
    struct ncp_flags flags;
    struct ncp_err_command noted;
    struct ncp_peer_counts counted;
    struct ncp_ignored_counts discarded;
    uint32_t one = 0, other = 0;
    uint8_t byte = 0;
    size_t len = a_room(NCP_LONGEST_MESSAGE), size = MARK;
    uint8_t *out = block_of(len);
    memset(out, MARK, len), memset(&it, 0, sizeof it);
    answered(ncp_changes(host, peer, local, remote, &it, &changes));
    answered(ncp_state(host, peer, local, remote, &it));
    answered(ncp_phase(host, peer, &flags));
    answered(ncp_echoed(host, peer, &byte));
    answered(ncp_error(host, peer, (uint32_t)pick(20), &noted));
    answered(ncp_counts(host, peer, &counted));
    answered(ncp_ignored(host, &discarded));
    answered(ncp_room(host, peer, local, remote, &one));
    if (answered(ncp_unacknowledged(host, peer, &other)) == NCP_DONE) HOLDS(other <= NCP_UNACKNOWLEDGED_RESET);
    answered(ncp_pair_on(host, peer, one_in(2), a_link(), &one, &other));
    look_at_bits(answered(ncp_kept(host, peer, a_link(), out, len, &size)), out, len, &size);
    memset(out, MARK, len), size = MARK;
    if (answered(ncp_waiting(host, peer, (uint32_t)pick(4), out, len, &size)) == NCP_DONE) HOLDS(size >= 1 && size <= NCP_LONGEST_COMMAND);
    mix(ncp_is_held(host, peer, a_link())), mix(ncp_is_open(host, peer, local, remote)), mix(ncp_is_up(host, peer));
    free(out);
}

/* Each connection comes once, in the order of the sockets. */
static void list(uint8_t peer)
{
    uint32_t local, remote, last_local = 0, last_remote = 0;
    struct ncp_connection it;
    for (uint32_t place = 0; ncp_connection_at(host, peer, place, &local, &remote, &it) == NCP_DONE; place++) {
        HOLDS(place == 0 || local > last_local || (local == last_local && remote > last_remote));
        last_local = local, last_remote = remote;
    }
}

static void watch(void)
{
    struct ncp_watch *it = &watches[host - hosts];
    struct ncp_event event;
    int count = 0;
    if (!ncp_is_made(host)) return;
    if (one_in(8)) memset(it, 0, sizeof *it), it->peer = a_peer();
    while (ncp_next_event(host, it, &event)) {
        mix(event.what), mix(event.local), mix(event.remote);
        HOLDS(event.what >= NCP_EVENT_UP && event.what <= NCP_EVENT_CLOSES && ++count < MOST_EVENTS);
    }
    HOLDS(it->missed == 0);
}

static void carry_in_subnet(void)
{
    const uint8_t from = (uint8_t)(one_in(8) ? pick(256) : (uint64_t)(host - hosts) + 1), to = a_peer(), link = a_link();
    const uint64_t which = pick(40);
    size_t len = a_room(NCP_LONGEST_MESSAGE), bits = MARK;
    uint8_t *out = block_of(len);
    memset(out, MARK, len);
    if (which == 0 && one_in(4)) ncp_subnet_free(&subnet);
    else if (which == 1) answered(ncp_subnet_new(&subnet, (const uint8_t *)"\1\2\3", (size_t)(one_in(4) ? pick(4) : TALK)));
    else if (which < 10) answered(ncp_subnet_lose(&subnet, from, to, link));
    else if (which < 16) answered(ncp_subnet_dead(&subnet, from, to, link));
    else if (which < 28) look_at_bits(answered(ncp_subnet_deliver(&subnet, from, to, link, out, len, &bits)), out, len, &bits);
    else look_at_bits(answered(ncp_subnet_answer(&subnet, from, to, link, out, len, &bits)), out, len, &bits);
    free(out);
}

/* Bytes that were saved, and spoiled, are no host, or one that is saved so. */
static void load(void)
{
    const struct save *from = &kept[pick(KEPT)];
    struct save spoiled = {NULL, from->len}, again;
    uint8_t *room;
    uint32_t code;
    if (from->bytes == NULL) return;
    room = block_of(from->len + 64);
    memcpy(room, from->bytes, from->len);
    spoiled.len = spoil(room, from->len, from->len + 64);
    spoiled.bytes = block_of(spoiled.len);
    memcpy(spoiled.bytes, room, spoiled.len);
    free(room);
    loads++;
    code = answered(ncp_load(host, spoiled.bytes, spoiled.len));
    HOLDS(code == NCP_DONE || code == NCP_LOAD_NOT_A_HOST || code == NCP_LOAD_OTHER_VERSION);
    if (code == NCP_DONE) {
        loaded++;
        again = saved(host);
        HOLDS(are_same(spoiled, again));
        free(again.bytes);
    }
    free(spoiled.bytes);
}

/* One of the hosts that talk, as it begins. */
static void begin(unsigned place)
{
    static const uint8_t peers[] = {1, 2, 3, 1, 2};
    HOLDS(ncp_new(&hosts[place], (uint8_t)(place + 1), peers + place + 1, TALK - 1) == NCP_DONE);
}

/* The life of a host: new, copied, saved, freed. */
static void live(void)
{
    static const uint8_t peers[] = {1, 2, 3, 4, 5, 6, 7, 8, 9, 10};
    const uint64_t which = pick(24);
    struct ncp_host *last = &hosts[HOSTS - 1];
    struct save *place = &kept[pick(KEPT)];
    if (which == 0) begin((unsigned)pick(TALK));
    else if (which == 1) ncp_free(last);
    else if (which < 4) answered(ncp_new(last, (uint8_t)pick(12), peers + pick(2), (size_t)pick(10)));
    else if (which < 8) answered(ncp_copy(&hosts[pick(HOSTS)], last));
    else if (which == 8) answered(ncp_copy(last, &hosts[pick(HOSTS)]));
    else if (ncp_is_made(host)) free(place->bytes), *place = saved(host);
}

/* The toolchain's functions over malloc, as heap.c has them for aarch64. */
static void heap(void)
{
    const size_t bytes = (size_t)pick(100), more = one_in(64) ? SIZE_MAX / 2 : (size_t)pick(200);
    struct tried first = rattle_alloc(bytes, (size_t)1 << pick(5)), then;
    HOLDS(first.is_there == 1 && first.block != NULL);
    memset(first.block, MARK, bytes);
    then = rattle_realloc(first.block, bytes < more ? bytes : more, more, 1);
    HOLDS(then.block != NULL && then.is_there == (more < SIZE_MAX / 2));
    for (size_t place = 0; then.is_there && place < bytes && place < more; place++) HOLDS(((uint8_t *)then.block)[place] == MARK);
    rattle_dealloc(then.is_there ? then.block : first.block);
}

/* The names of all numbers, in both forms, and what the library says of itself. */
static void names(void)
{
    const size_t sizes[] = {NCP_STRUCTS(SIZE_OF) 0};
    for (uint32_t code = 0; code < 256; code++) {
        const char *word = ncp_word(code);
        const size_t letters = strlen(word);
        char *name = (char *)block_of(letters);
        size_t len = MARK;
        if (letters == 0) {
            HOLDS(ncp_name(code, name, 0, &len) == NCP_NOTHING && len == MARK);
        } else {
            HOLDS(ncp_name(code, name, letters - 1, &len) == NCP_SHORT_BUFFER && len == MARK);
            HOLDS(ncp_name(code, name, letters, &len) == NCP_DONE && len == letters && memcmp(name, word, letters) == 0);
            HOLDS(letters <= NCP_LONGEST_NAME);
        }
        free(name);
    }
    HOLDS(strcmp(ncp_version(), NCP_VERSION) == 0);
    for (size_t place = 0; place < sizeof sizes / sizeof *sizes; place++) HOLDS(ncp_sizes()[place] == sizes[place]);
}

static void step(void)
{
    const uint32_t local = a_socket(), remote = local ^ (one_in(8) ? (uint32_t)pick(8) : 1);
    const uint64_t which = pick(100);
    uint8_t peer;
    host = &hosts[which < 85 || one_in(64) ? pick(HOSTS) : HOSTS - 1];
    if (one_in(64) && (which < 78 || which >= 85) && which < 95 && ncp_is_made(host)) before = saved(host);
    peer = a_peer();
    if (which < 10) receive();
    else if (which < 40) next_output();
    else if (which < 65) ask(peer, local, remote);
    else if (which < 70) read_out(peer, local, remote);
    else if (which < 73) list(peer);
    else if (which < 78) watch();
    else if (which < 85) carry_in_subnet();
    else if (which < 95) load();
    else if (which < 99) live();
    else heap();
    free(before.bytes), before.bytes = NULL;
}

int main(int argc, char **argv)
{
    const unsigned long inputs = begin_dice(argc, argv);
    static const uint8_t numbers[] = {1, 2, 3};
    file = fopen("/dev/null", "wb");
    if (file == NULL || !ncp_capture_begin(file)) return 1;
    names();
    for (unsigned place = 0; place < TALK; place++) begin(place);
    HOLDS(ncp_subnet_new(&subnet, numbers, TALK) == NCP_DONE);
    for (input = 1; input <= inputs; input++) step();
    for (int each = 0; each < HOSTS; each++) ncp_free(&hosts[each]);
    for (int each = 0; each < KEPT; each++) free(kept[each].bytes);
    ncp_subnet_free(&subnet);
    fclose(file);
    printf("%016llx %lu loads, of which %lu made a host\n", (unsigned long long)digest, loads, loaded);
    return 0;
}
