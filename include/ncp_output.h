/* SPDX-License-Identifier: MIT */
/* Sends all ready messages by a callback, over ncp_next_output of ncp.h: C99 and C++.
 *
 *     static void to_imp(void *line, const uint8_t *message, size_t bits) ...
 *     ...
 *     ncp_send_ready(&host, to_imp, &line);     (after each message that arrived, and after each call)
 */
#ifndef NCP_OUTPUT_H
#define NCP_OUTPUT_H

#include "ncp.h"

/* Gives a message of `bits` bits, with its leader, to the IMP. `context` is the pointer that ncp_send_ready was given. The host then
 * counts the message as sent, and does not offer it again, unless its answer says that it was lost. The callback may call the host,
 * and even ncp_send_ready. */
typedef void (*ncp_sender)(void *context, const uint8_t *message, size_t bits);

/* Calls `send` for each message that is ready, in the order in which they have to be sent. Returns their number: 0 too if there is no
 * host. Never allocates. */
static inline size_t ncp_send_ready(struct ncp_host *host, ncp_sender send, void *context)
{
    uint8_t message[NCP_LONGEST_MESSAGE];
    size_t bits, count = 0;
    while (ncp_next_output(host, message, sizeof message, &bits) == NCP_DONE) {
        send(context, message, bits);
        count++;
    }
    return count;
}

#endif
