/* What if: calls on a copy of a host show what would happen, and the host is unchanged. And a host is saved as bytes, and loaded. The
 * output is in fork.txt. */
#include "imp.h"

enum { A = 1, B = 2, ODD = 3, EVEN = 2 };

static const uint8_t rst[] = {REGULAR, B, 0, 0, 0, 8, 0, 1, 0, 12};
static const uint8_t rfnm[] = {RFNM, B, 0, 0};
/* Host B asks to receive at its socket 2 what socket 3 here sends, on link 2; and it closes the two. */
static const uint8_t rts[] = {REGULAR, B, 0, 0, 0, 8, 0, 10, 0, 1, 0, 0, 0, EVEN, 0, 0, 0, ODD, 2};
static const uint8_t cls[] = {REGULAR, B, 0, 0, 0, 8, 0, 9, 0, 3, 0, 0, 0, EVEN, 0, 0, 0, ODD};

static void say_state(const char *name, struct ncp_host *host)
{
    struct ncp_connection it;
    uint32_t code = ncp_state(host, B, ODD, EVEN, &it);
    if (code == NCP_DONE) printf("%s: asked=%d heard=%d opened=%d link=%d\n", name, it.asked, it.heard, it.opened, it.link);
    else printf("%s: %s\n", name, ncp_word(code));
}

int main(void)
{
    struct ncp_host host = NCP_EMPTY, copy = NCP_EMPTY;
    const uint8_t peer[] = {B};
    uint8_t out[NCP_LONGEST_MESSAGE];
    uint8_t *bytes;
    size_t bits = 0, size = 0;
    want(NCP_DONE, ncp_new(&host, A, peer, 1), "new");
    hand(&host, rst, sizeof rst, 8 * sizeof rst);
    want(NCP_DONE, ncp_next_output(&host, out, sizeof out, &bits), "next_output"); /* the RRP */
    hand(&host, rfnm, sizeof rfnm, 8 * sizeof rfnm);
    want(NCP_DONE, ncp_ask_send(&host, B, ODD, EVEN, 8, 1024), "ask_send");
    say_state("it asks", &host);

    want(NCP_DONE, ncp_copy(&host, &copy), "copy");
    hand(&copy, cls, sizeof cls, 8 * sizeof cls);
    say_state("if it is refused", &copy);
    want(NCP_DONE, ncp_copy(&host, &copy), "copy"); /* in the place of the one before */
    hand(&copy, rts, sizeof rts, 8 * sizeof rts);
    say_state("if it is answered", &copy);

    say_state("and still it asks", &host);
    ncp_free(&host);
    say_state("without the host", &host);
    say_state("the copy stays", &copy);

    want(NCP_SHORT_BUFFER, ncp_save(&copy, NULL, 0, &size), "save into nothing"); /* how many bytes it takes */
    bytes = (uint8_t *)malloc(size);
    if (bytes == NULL) return 1;
    want(NCP_DONE, ncp_save(&copy, bytes, size, &size), "save");
    ncp_free(&copy);
    want(NCP_DONE, ncp_load(&host, bytes, size), "load");
    say_state("it is loaded", &host);
    bytes[0] = 0;
    printf("no host: %s\n", ncp_word(ncp_load(&host, bytes, size)));
    free(bytes);
    ncp_free(&host);
    return 0;
}
