/* A long text in bytes of 36 bits, as a PDP-10 sends its words: packing them, the loops that give and take more than is
 * stored at a time, and two hosts that move to another thread in between. The output is in words.txt. */
#include "imp.h"
#include <pthread.h>

enum { A = 1, B = 2, ODD = 3, EVEN = 2, WORD = 36, ROOM = 65536, WORDS = 20000 };
enum { AT_ONCE = 8192 / WORD, BUFFER = NCP_LONGEST_MESSAGE };

struct pair {
    struct ncp_host a, b;
    unsigned given, taken, differing;
};

/* Two words are nine bytes. These write and read the words at an index. */
static void put_word(uint8_t *text, unsigned place, uint64_t word)
{
    for (unsigned bit = 0; bit < WORD; bit++) {
        unsigned at = place * WORD + bit;
        uint8_t mask = (uint8_t)(0x80 >> at % 8);
        text[at / 8] = (uint8_t)((text[at / 8] & ~mask) | ((word >> (WORD - 1 - bit) & 1) != 0 ? mask : 0));
    }
}

static uint64_t get_word(const uint8_t *text, unsigned place)
{
    uint64_t word = 0;
    for (unsigned at = place * WORD; at < (place + 1) * WORD; at++) word = word << 1 | (text[at / 8] >> (7 - at % 8) & 1);
    return word;
}

/* Any word, by its number: 36 bits. */
static uint64_t word_of(unsigned number)
{
    return number * UINT64_C(0x9e3779b97f4a7c15) >> 28;
}

static bool carry(struct ncp_host *from, uint8_t me, struct ncp_host *to)
{
    uint8_t message[BUFFER], answer[LEADER];
    size_t bits = 0;
    if (ncp_next_output(from, message, sizeof message, &bits) != NCP_DONE) return false;
    answer_of(RFNM, message, answer);
    message[1] = me;
    hand(to, message, sizeof message, bits);
    hand(from, answer, sizeof answer, 8 * sizeof answer);
    return true;
}

static void settle(struct pair *it)
{
    for (bool moved = true; moved;) {
        moved = carry(&it->a, A, &it->b);
        moved = carry(&it->b, B, &it->a) || moved;
    }
}

/* How many words there is room for. */
static unsigned room_for(struct pair *it)
{
    uint32_t room;
    struct ncp_connection known;
    want(NCP_DONE, ncp_room(&it->a, B, ODD, EVEN, &room), "room");
    want(NCP_DONE, ncp_state(&it->a, B, ODD, EVEN, &known), "state");
    return (room - known.stored) / WORD;
}

/* Gives as many words as there is room for, a message's worth at a time. */
static void give(struct pair *it, unsigned end)
{
    uint8_t text[BUFFER] = {0};
    for (unsigned left = room_for(it); left > 0 && it->given < end;) {
        unsigned count = left < AT_ONCE ? left : (unsigned)AT_ONCE;
        if (count > end - it->given) count = end - it->given;
        memset(text, 0, sizeof text);
        for (unsigned place = 0; place < count; place++) put_word(text, place, word_of(it->given + place));
        want(NCP_DONE, ncp_give(&it->a, B, ODD, EVEN, text, sizeof text, (size_t)count * WORD), "give");
        it->given += count, left -= count;
    }
}

/* Takes all that is held, a message's worth at a time, and allows as much again. */
static void take(struct pair *it)
{
    uint8_t text[BUFFER];
    size_t bits = 0;
    for (;;) {
        want(NCP_DONE, ncp_take(&it->b, A, EVEN, ODD, UINT32_MAX, text, sizeof text, &bits), "take");
        if (bits == 0) return;
        for (unsigned place = 0; place < bits / WORD; place++) it->differing += get_word(text, place) != word_of(it->taken + place);
        it->taken += (unsigned)(bits / WORD);
        want(NCP_DONE, ncp_allocate(&it->b, A, EVEN, ODD, 1, (uint32_t)bits), "allocate");
    }
}

static void run(struct pair *it, unsigned end)
{
    while (it->taken < end) {
        give(it, end);
        settle(it);
        take(it);
        settle(it);
    }
}

static void *second_half(void *pair)
{
    run((struct pair *)pair, WORDS);
    return NULL;
}

int main(void)
{
    struct pair it = {NCP_EMPTY, NCP_EMPTY, 0, 0, 0};
    const uint8_t peer_of_a[] = {B}, peer_of_b[] = {A};
    pthread_t thread;
    want(NCP_DONE, ncp_new(&it.a, A, peer_of_a, 1), "new");
    want(NCP_DONE, ncp_new(&it.b, B, peer_of_b, 1), "new");
    want(NCP_DONE, ncp_reset(&it.a, B), "reset");
    settle(&it);
    want(NCP_DONE, ncp_ask_receive(&it.b, A, EVEN, ODD, ROOM), "ask_receive");
    want(NCP_DONE, ncp_ask_send(&it.a, B, ODD, EVEN, WORD, ROOM), "ask_send");
    settle(&it);
    want(NCP_DONE, ncp_allocate(&it.b, A, EVEN, ODD, ROOM / WORD, ROOM), "allocate");
    settle(&it);

    /* The thread begins after all calls here, and ends before those that follow: so one call comes after another. */
    run(&it, WORDS / 2);
    printf("here: %u of %u words, %u differ\n", it.taken, WORDS / 2, it.differing);
    if (pthread_create(&thread, NULL, second_half, &it) != 0 || pthread_join(thread, NULL) != 0) return 1;
    printf("there: %u of %u words, %u differ\n", it.taken, WORDS, it.differing);
    ncp_free(&it.a);
    ncp_free(&it.b);
    return 0;
}
