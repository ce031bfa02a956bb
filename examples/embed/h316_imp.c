/* A small IMP with two hosts, 1 and 2, at the datagrams of h316.h: `h316_imp HERE1 THERE1 HERE2 THERE2`, the UDP ports of
 * both lines. It is ready once both hosts are, carries messages, and ends once neither host is ready any longer. It loses
 * the first text without an answer, like an IMP that restarts, and reports a restart to both hosts. */
#define _POSIX_C_SOURCE 200809L
#include "h316.h"

enum { HOSTS = 2 };

static struct line lines[HOSTS];
static bool is_begun, was_started_anew;

/* Drops its messages, and notifies both hosts. */
static void start_anew(void)
{
    was_started_anew = true;
    for (int host = 0; host < HOSTS; host++) {
        send_leader(&lines[host], INTERFACE_RESET);
        send_nops(&lines[host]);
    }
}

/* A message of a host: delivers it, with its source in the leader, and answers the host. */
static void carry(uint8_t from, uint8_t *message, size_t bits)
{
    uint8_t answer[LEADER];
    uint8_t to = message[1];
    if ((message[0] & 15) != REGULAR) return; /* a NOP */
    if (message[2] != 0 && !was_started_anew) {
        start_anew();
        return;
    }
    answer_of(to >= 1 && to <= HOSTS && lines[to - 1].is_ready ? RFNM : DEAD, message, answer);
    if (answer[0] == RFNM) {
        message[1] = from;
        send_message(&lines[to - 1], message, bits);
    }
    send_message(&lines[from - 1], answer, 8 * sizeof answer);
}

int main(int argc, char **argv)
{
    struct pollfd ready[HOSTS];
    if (argc != 1 + 2 * HOSTS) {
        fputs("usage: h316_imp HERE1 THERE1 HERE2 THERE2\n", stderr);
        return 2;
    }
    for (int host = 0; host < HOSTS; host++) {
        attach(&lines[host], argv[1 + 2 * host], argv[2 + 2 * host]);
        ready[host].fd = lines[host].socket;
        ready[host].events = POLLIN;
    }
    while (!is_begun || lines[0].is_ready || lines[1].is_ready) {
        if (poll(ready, HOSTS, 1000 * PATIENCE) <= 0) give_up("nothing came");
        for (int host = 0; host < HOSTS; host++) {
            size_t bits;
            if ((ready[host].revents & (POLLIN | POLLERR)) == 0) continue;
            bits = take_part(&lines[host]);
            if (!is_begun && lines[0].is_ready && lines[1].is_ready) {
                is_begun = true;
                for (int each = 0; each < HOSTS; each++) send_nops(&lines[each]);
            }
            if (bits >= 8 * LEADER) carry((uint8_t)(host + 1), lines[host].message, bits);
        }
    }
    for (int host = 0; host < HOSTS; host++) detach(&lines[host]);
    return 0;
}
