/* SPDX-License-Identifier: MIT */
/* Events of a peer and its connections, one by one, over the functions of ncp.h: C99 and C++.
 *
 *     static struct ncp_watch watch;
 *     struct ncp_event event;
 *     watch.peer = 2;
 *     ...
 *     while (ncp_next_event(&host, &watch, &event)) ...     (after each message received or sent, and after each call)
 *
 * ncp_changes compares two observations of one connection; this keeps the last observation of each. It allocates nothing. If
 * something changed twice between two observations, only the final state is reported. */
#ifndef NCP_EVENTS_H
#define NCP_EVENTS_H

#include "ncp.h"
#include <string.h>

/* Kinds of events. From NCP_EVENT_CLOSED on they are about a connection, as in `struct ncp_changes` and in its order. */
enum {
    NCP_EVENT_UP = 1,
    NCP_EVENT_DOWN,
    NCP_EVENT_ECHOED, /* an echo was answered: ncp_echoed has another byte, or its first */
    NCP_EVENT_HELD,   /* a message is held, since its destination was dead: call ncp_wake to send it */
    NCP_EVENT_CLOSED,
    NCP_EVENT_REFUSED,
    NCP_EVENT_ENDED,
    NCP_EVENT_ASKS,
    NCP_EVENT_OPENED,
    NCP_EVENT_TEXT,
    NCP_EVENT_ALLOWED,
    NCP_EVENT_DELIVERED,
    NCP_EVENT_INTERRUPTED,
    NCP_EVENT_CLOSES
};

struct ncp_event {
    uint32_t what;
    uint32_t local; /* the sockets of the connection, here and there; 0 if it is about the peer alone */
    uint32_t remote;
};

/* The last observation of a connection, and its changes that were not reported yet. */
struct ncp_seen {
    uint32_t local;
    uint32_t remote;
    struct ncp_connection at;
    struct ncp_changes due;
};

/* The most connections that are watched: twice as many as a host has with a peer, so that both those that ended since the last
 * observation and those that began have room. And the last link. */
enum { NCP_WATCHED = 256, NCP_LAST_LINK = 71 };

/* The last observation of a peer. Set it to zeros, and then `peer`. */
struct ncp_watch {
    uint8_t peer;
    uint8_t echo; /* the last byte that an echo was answered with */
    bool is_up;
    bool is_echoed;
    bool is_held;
    bool due[NCP_EVENT_CLOSED]; /* events of the peer alone that were not reported yet, by their number */
    uint32_t changes;           /* the number of events reported so far */
    uint32_t missed;            /* how often a connection had no room; never, with the limits of the library */
    uint32_t count;
    struct ncp_seen seen[NCP_WATCHED];
};

/* The next change of a connection that was not reported yet; it then counts as reported. 0 if there is none. */
static inline uint32_t ncp_next_change(struct ncp_changes *due)
{
    bool *each[] = {&due->closed,  &due->refused,   &due->ended,       &due->asks,  &due->opened, &due->text,
                    &due->allowed, &due->delivered, &due->interrupted, &due->closes};
    for (uint32_t place = 0; place < sizeof each / sizeof *each; place++) {
        if (!*each[place]) continue;
        *each[place] = false;
        return NCP_EVENT_CLOSED + place;
    }
    return 0;
}

/* Sets `*event` to the next event that was not reported yet. False if there is none. */
static inline bool ncp_next_told(struct ncp_watch *watch, struct ncp_event *event)
{
    event->local = 0, event->remote = 0;
    for (event->what = NCP_EVENT_UP; event->what < NCP_EVENT_CLOSED; event->what++) {
        if (!watch->due[event->what]) continue;
        watch->due[event->what] = false;
        return true;
    }
    for (uint32_t place = 0; place < watch->count; place++) {
        struct ncp_seen *seen = &watch->seen[place];
        event->what = ncp_next_change(&seen->due);
        if (event->what == 0) continue;
        event->local = seen->local, event->remote = seen->remote;
        return true;
    }
    return false;
}

/* Watches a connection, unless it is watched already. */
static inline void ncp_watch_one(struct ncp_watch *watch, uint32_t local, uint32_t remote)
{
    for (uint32_t place = 0; place < watch->count; place++) {
        if (watch->seen[place].local == local && watch->seen[place].remote == remote) return;
    }
    if (watch->count == NCP_WATCHED) {
        watch->missed++;
        return;
    }
    memset(&watch->seen[watch->count], 0, sizeof watch->seen[watch->count]);
    watch->seen[watch->count].local = local, watch->seen[watch->count].remote = remote;
    watch->count++;
}

/* Observes the peer, without its connections. */
static inline void ncp_look_at_peer(struct ncp_host *host, struct ncp_watch *watch)
{
    bool is_up = ncp_is_up(host, watch->peer), is_held = false;
    uint8_t echo = 0;
    bool is_echoed = ncp_echoed(host, watch->peer, &echo) == NCP_DONE;
    for (uint8_t link = 0; link <= NCP_LAST_LINK; link++) is_held = is_held || ncp_is_held(host, watch->peer, link);
    watch->due[NCP_EVENT_UP] = is_up && !watch->is_up;
    watch->due[NCP_EVENT_DOWN] = !is_up && watch->is_up;
    watch->due[NCP_EVENT_ECHOED] = is_echoed && !(watch->is_echoed && watch->echo == echo);
    watch->due[NCP_EVENT_HELD] = is_held && !watch->is_held;
    watch->is_up = is_up, watch->is_held = is_held, watch->is_echoed = is_echoed, watch->echo = echo;
}

/* Observes the connections. One that has ended stays watched until its end was reported. */
static inline void ncp_look_at_connections(struct ncp_host *host, struct ncp_watch *watch)
{
    uint32_t local, remote, left = 0;
    struct ncp_connection it;
    for (uint32_t place = 0; place < watch->count; place++) {
        if (watch->seen[place].at.asked || watch->seen[place].at.heard) watch->seen[left++] = watch->seen[place];
    }
    watch->count = left;
    for (uint32_t place = 0; ncp_connection_at(host, watch->peer, place, &local, &remote, &it) == NCP_DONE; place++) {
        ncp_watch_one(watch, local, remote);
    }
    for (uint32_t place = 0; place < watch->count; place++) {
        struct ncp_seen *seen = &watch->seen[place];
        ncp_changes(host, watch->peer, seen->local, seen->remote, &seen->at, &seen->due);
    }
}

/* Sets `*event` to the next event; observes the host again once all earlier events were reported. False if there is none. */
static inline bool ncp_next_event(struct ncp_host *host, struct ncp_watch *watch, struct ncp_event *event)
{
    if (!ncp_next_told(watch, event)) {
        ncp_look_at_peer(host, watch);
        ncp_look_at_connections(host, watch);
        if (!ncp_next_told(watch, event)) return false;
    }
    watch->changes++;
    return true;
}

#endif
