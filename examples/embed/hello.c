/* Two hosts in one process, and the IMPs between them: they come up, open a connection, and send a text. */
#include "ncp.h"
#include <stdio.h>
#include <stdlib.h>

static struct ncp_host a = NCP_EMPTY, b = NCP_EMPTY;

/* Ends the program if a function returned an error. */
static void check(uint32_t code)
{
    if (code == NCP_DONE) return;
    fprintf(stderr, "%s\n", ncp_word(code));
    exit(1);
}

/* Carries the next message of the host `from` as IMPs do, and returns whether there was one. */
static bool carry(struct ncp_host *from, uint8_t number, struct ncp_host *to)
{
    uint8_t message[NCP_LONGEST_MESSAGE];
    size_t bits;
    struct ncp_arrived arrived;
    if (ncp_next_output(from, message, sizeof message, &bits) != NCP_DONE) return false;
    const uint8_t rfnm[] = {NCP_TYPE_RFNM, message[1], message[2], 0};
    message[1] = number; /* the leader on arrival names the source */
    check(ncp_receive(to, message, sizeof message, bits, &arrived));
    check(ncp_receive(from, rfnm, sizeof rfnm, 32, &arrived));
    return true;
}

static void settle(void)
{
    while (carry(&a, 1, &b) || carry(&b, 2, &a)) continue;
}

int main(void)
{
    const uint8_t hosts[] = {1, 2};
    uint8_t text[NCP_LONGEST_MESSAGE];
    size_t bits;
    check(ncp_new(&a, 1, &hosts[1], 1)); /* host 1, with the peer 2 */
    check(ncp_new(&b, 2, &hosts[0], 1)); /* host 2, with the peer 1 */
    check(ncp_reset(&a, 2));             /* brings both up */
    settle();
    check(ncp_ask_receive(&b, 1, 2, 3, 1024)); /* at socket 2 here from socket 3 of host 1; room for 1,024 bits */
    check(ncp_ask_send(&a, 2, 3, 2, 8, 1024)); /* from socket 3 here to socket 2 of host 2, in bytes of 8 bits */
    settle();
    check(ncp_allocate(&b, 1, 2, 3, 1, 40)); /* one message, of at most 40 bits */
    check(ncp_give(&a, 2, 3, 2, (const uint8_t *)"hello", 5, 40));
    settle();
    check(ncp_take(&b, 1, 2, 3, UINT32_MAX, text, sizeof text, &bits));
    printf("%.*s\n", (int)(bits / 8), (const char *)text);
    ncp_free(&a);
    ncp_free(&b);
    return 0;
}
