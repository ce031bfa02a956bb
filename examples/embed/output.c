/* Two hosts whose messages are sent by a callback, and reach the other host at once. */
#include "ncp_output.h"
#include <stdio.h>
#include <stdlib.h>

/* A line from one host to the other. */
struct line {
    uint8_t from;
    uint8_t to;
    struct ncp_host *sender;
    struct ncp_host *receiver;
};

static void check(uint32_t code)
{
    if (code == NCP_DONE) return;
    fprintf(stderr, "%s\n", ncp_word(code));
    exit(1);
}

static void carry(void *context, const uint8_t *message, size_t bits)
{
    const struct line *line = (const struct line *)context;
    const uint8_t rfnm[] = {NCP_TYPE_RFNM, line->to, message[2], 0};
    uint8_t arriving[NCP_LONGEST_MESSAGE];
    struct ncp_arrived arrived;
    printf("%d to %d: link %d, %d bits\n", line->from, line->to, message[2], (int)bits);
    for (size_t place = 0; place < (bits + 7) / 8; place++) arriving[place] = message[place];
    arriving[1] = line->from; /* the leader on arrival names the source */
    check(ncp_receive(line->receiver, arriving, sizeof arriving, bits, &arrived));
    check(ncp_receive(line->sender, rfnm, sizeof rfnm, 32, &arrived));
}

int main(void)
{
    const uint8_t hosts[] = {1, 2};
    struct ncp_host a = NCP_EMPTY, b = NCP_EMPTY, none = NCP_EMPTY;
    struct line there = {1, 2, &a, &b}, back = {2, 1, &b, &a};
    uint8_t echoed;
    check(ncp_new(&a, 1, &hosts[1], 1));
    check(ncp_new(&b, 2, &hosts[0], 1));
    check(ncp_reset(&a, 2));
    while (ncp_send_ready(&a, carry, &there) + ncp_send_ready(&b, carry, &back) > 0) continue;
    check(ncp_echo(&a, 2, 7));
    printf("%d sent\n", (int)ncp_send_ready(&a, carry, &there));
    printf("%d sent\n", (int)ncp_send_ready(&b, carry, &back));
    printf("%d sent\n", (int)(ncp_send_ready(&b, carry, &back) + ncp_send_ready(&none, carry, &there)));
    check(ncp_echoed(&a, 2, &echoed));
    printf("echoed: %d\n", echoed);
    ncp_free(&a);
    ncp_free(&b);
    return 0;
}
