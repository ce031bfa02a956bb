/* The parts of an IMP that the examples need: messages as text, and the leaders that a network writes. */
#ifndef IMP_H
#define IMP_H

#include "ncp.h"
#include <stdio.h>
#include <stdlib.h>
#include <string.h>

/* Types of messages, and the bytes of a leader (BBN 1822, section 3). */
enum { REGULAR = NCP_TYPE_REGULAR, RFNM = NCP_TYPE_RFNM, DEAD = NCP_TYPE_DESTINATION_DEAD, INCOMPLETE = NCP_TYPE_INCOMPLETE, LEADER = 4 };

/* Ends the program if a function returned an unexpected number. */
static inline void want(uint32_t wanted, uint32_t answered, const char *what)
{
    if (answered == wanted) return;
    printf("%s answered %s in place of %s\n", what, ncp_word(answered), ncp_word(wanted));
    exit(1);
}

/* Prints words, followed by a message as digits. */
static inline void say(const char *words, const uint8_t *message, size_t bits)
{
    printf("%s ", words);
    for (size_t place = 0; place < (bits + 7) / 8; place++) printf("%02x", message[place]);
    printf("\n");
}

/* The text of a peer: what is no letter, digit or sign of ASCII as its digits, as \x1b, since a terminal may obey it. */
static inline void say_text(const uint8_t *text, size_t len)
{
    for (size_t place = 0; place < len; place++) printf(text[place] >= 0x20 && text[place] < 0x7f ? "%c" : "\\x%02x", text[place]);
    printf("\n");
}

/* The answer of a network to a message of a host: a leader of a type, with the message's destination and
 * link. */
static inline void answer_of(uint8_t type, const uint8_t *message, uint8_t answer[LEADER])
{
    answer[0] = type;
    answer[1] = message[1];
    answer[2] = message[2];
    answer[3] = 0;
}

/* Passes a received message to a host. */
static inline struct ncp_arrived hand(struct ncp_host *host, const uint8_t *message, size_t len, size_t bits)
{
    struct ncp_arrived arrived;
    want(NCP_DONE, ncp_receive(host, message, len, bits, &arrived), "receive");
    return arrived;
}

#endif
