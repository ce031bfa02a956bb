/* SPDX-License-Identifier: MIT */
/* A host of the ARPANET with one to eight peers, and a subnet between hosts, for emulators: C99 and C++.
 *
 * Link libncp.a or libncp.so.2: both are in prebuilt/, include/library makes them, and include/install installs them.
 * docs/EMBEDDING.md begins with a whole program and says how to drive a host; examples/embed has more programs.
 *
 * Errors. A function that returns `uint32_t` returns NCP_DONE (0) or an error. On an error the host, the subnet and
 * all buffers are unchanged, except that ncp_save may set `*size`. If several errors apply, the first of these is
 * returned:
 * 1. NCP_NO_HOST or NCP_NO_SUBNET: `host` or `subnet` is null, or is empty although the function needs one.
 * 2. NCP_NO_POINTER: another pointer is null, even with length 0 (but see ncp_save).
 * 3. The errors that are listed at the function, in that order.
 *
 * Bits. Sizes of messages and texts are in bits, lengths of buffers in bytes. The first bit is the most significant
 * one of the first byte. The spare bits of the last byte are zero.
 *
 * Memory. A function that allocates says so. None keeps a pointer that it is given.
 *
 * The caller has to uphold this, which nothing checks:
 * - A `struct ncp_host` or `struct ncp_subnet` is NCP_EMPTY before its first use, and later what these functions left
 *   in it. You may move the struct. Of two copies of it use only one; ncp_copy makes a second host.
 * - Make one call at a time on a host or a subnet, reads included. Another thread may make the next one, if a lock or
 *   a join orders the two.
 * - A pointer that is not null leads to as much memory as the length next to it says, or to one value of its type. No
 *   two pointers of a call overlap, and each is aligned for its type.
 * - malloc, realloc and free are one allocator. It aligns a block to each power of two up to 16 that divides its size.
 *   Make no call in a signal handler, or in the forked child of a process with threads.
 */
#ifndef NCP_H
#define NCP_H

#include <stdbool.h>
#include <stddef.h>
#include <stdint.h>

/* The version of this header; ncp_version returns that of the library. Its first number is that of the shared library,
 * libncp.so.2: another one may have other structs. */
#define NCP_VERSION "2.0.0"

#ifdef __cplusplus
extern "C" {
#endif

/* What functions return. Each number has one meaning. */
enum {
    NCP_DONE = 0,

    /* Why a host refuses a call. */
    NCP_UNKNOWN_PEER = 1,
    NCP_NOT_UP = 2,
    NCP_BAD_SEX = 3,
    NCP_BAD_SIZE = 4,
    NCP_BAD_ROOM = 5,
    NCP_NO_ENTRY = 6,
    NCP_ALREADY_ASKED = 7,
    NCP_CLOSING = 8,
    NCP_NOT_OPEN = 9,
    NCP_WRONG_END = 10,
    NCP_NOT_WHOLE = 11,
    NCP_BUSY = 12,
    NCP_NO_ROOM = 13,
    NCP_TOO_MUCH = 14,
    NCP_TABLE_FULL = 15,
    NCP_QUEUE_FULL = 16,
    NCP_OUT_OF_MEMORY = 17,

    NCP_NO_HOST = 32,
    NCP_NO_POINTER = 33,
    NCP_SHORT_BUFFER = 34, /* the buffer is shorter than the longest result */
    NCP_NOTHING = 35,      /* there is none, or none left */
    NCP_NO_SUBNET = 36,

    /* What is wrong with bits that are given: 40 and the number of the fault. */
    NCP_TOO_LONG = 41,       /* more than 8192 bits */
    NCP_SHORT_BYTES = 42,    /* fewer bytes than the bits take */
    NCP_SPARE_NOT_ZERO = 43, /* a spare bit of the last byte used is set */

    /* From ncp_new, ncp_copy and ncp_subnet_new: 64 and the number of the refusal. */
    NCP_NEW_BAD_PEERS = 65,
    NCP_NEW_OUT_OF_MEMORY = 66,

    /* From ncp_subnet_accept: 72 and the number of the refusal. */
    NCP_SUBNET_NOT_REGULAR = 73,
    NCP_SUBNET_NO_HOST = 74,
    NCP_SUBNET_OCCUPIED = 75,

    /* From ncp_load: 80 and the number of the refusal. */
    NCP_LOAD_NOT_A_HOST = 81,
    NCP_LOAD_OTHER_VERSION = 82,
    NCP_LOAD_OUT_OF_MEMORY = 83
};

/* Lengths in bytes: of the longest message or text, the longest command, and the longest name. */
enum {
    NCP_LONGEST_MESSAGE = 1024,
    NCP_LONGEST_COMMAND = 12,
    NCP_LONGEST_NAME = 12
};

/* The outcome of a message that arrived: `what` of `struct ncp_arrived`. They are checked in this order, except that
 * NCP_ARRIVED_NOT_UP comes before NCP_ARRIVED_TEXT. `detail` is 0 unless it is described here. */
enum {
    NCP_ARRIVED_SHORT = 1,      /* fewer than 32 bits */
    NCP_ARRIVED_OTHER = 2,      /* of a type that has no effect on a host; `detail`: the type */
    NCP_ARRIVED_UNKNOWN = 3,    /* from a host that is no peer */
    NCP_ARRIVED_STRAY = 4,      /* an answer on a link without an unanswered message */
    NCP_ARRIVED_ANSWERED = 5,   /* the answer to the message that was sent on its link; `detail`: its type, 5 for
                                 * RFNM, 7 for Destination Dead, 9 for Incomplete Transmission */
    NCP_ARRIVED_FAULT = 6,      /* of type 0, but not a regular message; `detail`: the first reason of these:
                                 * 1 shorter than leader and prefix, 2 the eight bits before the byte size are not
                                 * zero, 3 the byte size is zero, 4 the eight bits after the byte count are not
                                 * zero, 5 the text is shorter than byte size times byte count */
    NCP_ARRIVED_WRONG_LINK = 7, /* on link 1, or on one over 71 */
    NCP_ARRIVED_WRONG_SIZE = 8, /* a control message with a byte size other than 8 */
    NCP_ARRIVED_CONTROL = 9,    /* `detail`: how many whole commands were read, dropped ones included */
    NCP_ARRIVED_TEXT = 10,      /* `detail`: 1 admitted, 2 late, 3 wrong size, 4 over, 5 not open */
    NCP_ARRIVED_NOT_UP = 11     /* a text while the host is not up with the peer */
};

/* The types of messages from an IMP (BBN 1822, section 3): `kind` of `struct ncp_arrived`. */
enum {
    NCP_TYPE_REGULAR = 0,
    NCP_TYPE_ERROR_IN_LEADER = 1,  /* the IMP dropped a message whose leader it could not read; it does not say which */
    NCP_TYPE_GOING_DOWN = 2,
    NCP_TYPE_NOP = 4,
    NCP_TYPE_RFNM = 5,
    NCP_TYPE_DESTINATION_DEAD = 7,
    NCP_TYPE_ERROR_IN_MESSAGE = 8, /* the IMP dropped the message to `peer` on `link`; no answer to it follows */
    NCP_TYPE_INCOMPLETE = 9,
    NCP_TYPE_INTERFACE_RESET = 10  /* the interface was reset: messages in flight are gone, as after a restart of the IMP */
};

/* What of the messages to a peer no RFNM has acknowledged, as ncp_unacknowledged returns it. */
enum {
    NCP_UNACKNOWLEDGED_NOTHING = 0, /* all are acknowledged, or held since a Destination Dead */
    NCP_UNACKNOWLEDGED_MESSAGE = 1, /* a message, but no RST and no RRP */
    NCP_UNACKNOWLEDGED_RESET = 2    /* a message with an RST or an RRP */
};

/* A host, or none. Initialize it by NCP_EMPTY, as in `struct ncp_host host = NCP_EMPTY;`: NCP_EMPTY is an initializer,
 * and not a value to assign. A static struct, and one that is all zeros, is empty too. */
struct ncp_host {
    void *at;
};

/* A subnet between hosts, or none. Initialize it by NCP_EMPTY too. */
struct ncp_subnet {
    void *at;
};
#define NCP_EMPTY {NULL}

struct ncp_arrived {
    uint32_t what;
    uint32_t detail;
    uint32_t local;  /* of a text: the local socket of the connection that its link belongs to; 0 if there is none */
    uint32_t remote; /* and the peer's socket */
    uint32_t errors; /* of a control message: how many ERRs were read, dropped ones included */
    uint32_t resets; /* and how many RSTs; each ended all connections with the peer */
    uint8_t peer;    /* the host that the leader names; 0 if there is no leader */
    uint8_t link;    /* and its link */
    uint8_t kind;    /* and its type, for every outcome: NCP_TYPE_.. */
};

/* The flags for a peer. The host is up with the peer if none is set. At first `down` alone is set. */
struct ncp_flags {
    bool down; /* the host has made no RST and no RRP since the start, or since it went down with the peer */
    bool want; /* an RST is to be made, once the data links are quiet: no text is unanswered, held, or to be sent again */
    bool owe;  /* an RRP is to be made, once the data links are quiet */
    bool wait; /* an RST was made, and its RRP has not arrived */
};

/* The tags that three structs had before; the next major version drops them. */
#define ncp_counted ncp_peer_counts
#define ncp_discarded ncp_ignored_counts
#define ncp_noted ncp_err_command

/* Counts of what arrived from a peer. Each stops at 4,294,967,295. */
struct ncp_peer_counts {
    uint32_t stray;      /* answers on links without an unanswered message, RRPs that none awaited, and ERPs that
                          * answered no echo */
    uint32_t faults;     /* messages of type 0 that are not regular messages */
    uint32_t wrong_link; /* regular messages on link 1, or on links over 71 */
    uint32_t wrong_size; /* control messages with a byte size other than 8, and texts with another byte size than their
                          * connection has */
    uint32_t not_up;     /* texts, commands but RST and RRP, and faults of control texts, while the host was not up */
    uint32_t late;       /* texts, and commands that name a link, for an endpoint that is leaving or left */
    uint32_t over;       /* texts beyond the allocation */
};

/* Counts of messages from no peer. */
struct ncp_ignored_counts {
    uint32_t short_bits; /* fewer than 32 bits */
    uint32_t other;      /* of a type that has no effect on a host */
    uint32_t unknown;    /* from a host that is no peer */
};

/* An ERR that arrived. */
struct ncp_err_command {
    uint8_t code;      /* 1 to 5 as in docs/PROTOCOL.md, or another that a peer sends */
    uint8_t bytes[10]; /* its data: what it is about, and zeros after that */
};

/* A connection, or a request for one. */
struct ncp_connection {
    uint32_t bits;       /* bits that a sender may still send, or that are outstanding at a receiver */
    uint32_t stored;     /* bits that are queued at a sender, or held at a receiver */
    uint32_t interrupts; /* how many arrived */
    uint16_t messages;   /* as `bits`, of messages */
    uint8_t link;        /* 2 to 71; 0 until the receiver chose one */
    uint8_t size;        /* bits in a byte; 0 until the sender chose it */
    bool sends;          /* this side sends; else it receives */
    bool asked;          /* the local request was made */
    bool heard;          /* the peer's request arrived */
    bool opened;         /* both requests met while neither side had closed */
    bool leaving;        /* a CLS is due */
    bool left;           /* the CLS was made */
    bool cls;            /* the peer's CLS arrived */
    bool busy;           /* a sender's text was sent and has had no RFNM */
    bool recall;         /* a receiver's GVB has had no RET */
};

/* What changed of a connection between two looks. If it ended, the fields from `asks` on describe the next connection
 * of the same sockets, if there is one. */
struct ncp_changes {
    bool closed;      /* it ended, and this side had closed it first */
    bool refused;     /* it ended before the peer had asked: the peer refused the local request, or there was a reset */
    bool ended;       /* it ended, and the peer had asked: the peer closed it first, or there was a reset */
    bool asks;        /* the peer asks, and this side has not */
    bool opened;      /* both requests met */
    bool text;        /* more text is held */
    bool allowed;     /* more messages may be sent, or more bits */
    bool delivered;   /* the text that was unanswered was delivered */
    bool interrupted; /* interrupts arrived */
    bool closes;      /* the peer closes it: its CLS arrived */
};

/* Whether the struct has a host. */
bool ncp_is_made(const struct ncp_host *host);

/* Makes the host with the number `me` and these peers, `count` of them, in this order. It is down with each.
 * Allocates. `host` may be empty but not null; on success a host that it had is freed.
 * Errors, in order: NCP_NEW_BAD_PEERS (not one to eight, not distinct, or one is `me`), NCP_NEW_OUT_OF_MEMORY. */
uint32_t ncp_new(struct ncp_host *host, uint8_t me, const uint8_t *peers, size_t count);

/* Makes `copy` a second host in the same state; from then on the two are independent. So a copy can be asked what
 * would happen, or kept to go back to. Allocates. `copy` may be empty; on success a host that it had is freed.
 * Error: NCP_NEW_OUT_OF_MEMORY. */
uint32_t ncp_copy(struct ncp_host *host, struct ncp_host *copy);

/* Saves the whole host: writes `*size` bytes to the front of `out`, which has `len` bytes. If `len` is too small it
 * sets `*size` and returns NCP_SHORT_BUFFER. So ask for the size first, with `len` 0; then alone `out` may be null.
 * The bytes begin with "NCP host" and the number of the layout, 1, and are the same on each machine. Allocates
 * until the call ends.
 * Errors, in order: NCP_OUT_OF_MEMORY, NCP_SHORT_BUFFER. */
uint32_t ncp_save(struct ncp_host *host, uint8_t *out, size_t len, size_t *size);

/* Makes the host that was saved as these `len` bytes, on this machine or another. They may come from anywhere: bytes
 * that no host is saved as are refused, and those that ncp_save wrote of any host are accepted, unless an allocation
 * fails. Allocates. `host` may be empty but not null; on success a host that it had is freed.
 * Errors, in order: NCP_LOAD_NOT_A_HOST (the bytes do not begin with the name and the number of a layout),
 * NCP_LOAD_OTHER_VERSION (of another layout), then the first met of NCP_LOAD_NOT_A_HOST (no host is saved as these)
 * and NCP_LOAD_OUT_OF_MEMORY. */
uint32_t ncp_load(struct ncp_host *host, const uint8_t *bytes, size_t len);

/* Frees the host, if there is one. The struct is then NCP_EMPTY. */
void ncp_free(struct ncp_host *host);

/* Gives the host a message that arrived from its IMP, with its leader: `bits` bits in `len` bytes. Sets `*arrived` to
 * its outcome. Never allocates.
 * Errors, in order: NCP_TOO_LONG, NCP_SHORT_BYTES, NCP_SPARE_NOT_ZERO. */
uint32_t ncp_receive(struct ncp_host *host, const uint8_t *bytes, size_t len, size_t bits, struct ncp_arrived *arrived);

/* Sends the next message: writes it, with its leader, to the front of `out` (`len` bytes), and sets `*bits`. Give it
 * to the IMP. Never allocates.
 * Errors, in order: NCP_SHORT_BUFFER (fewer than NCP_LONGEST_MESSAGE), NCP_NOTHING (none is ready; the next call or
 * message may make one ready). */
uint32_t ncp_next_output(struct ncp_host *host, uint8_t *out, size_t len, size_t *bits);

/* Resets with a peer: ends all connections with it, and queues an RST once the data links to it are quiet.
 * Errors, in order: NCP_UNKNOWN_PEER, NCP_BUSY (a reset is under way). */
uint32_t ncp_reset(struct ncp_host *host, uint8_t peer);

/* Asks to send from the socket `local` here to the socket `remote` of the peer, in bytes of `size` bits, with room for
 * `room` queued bits. Queues an STR. Allocates the room.
 * Errors, in order: NCP_UNKNOWN_PEER, NCP_NOT_UP, NCP_BAD_SEX (`local` has to be odd, `remote` even), NCP_BAD_SIZE
 * (0), NCP_BAD_ROOM (not 1 to 65536 bits), NCP_ALREADY_ASKED, NCP_CLOSING, NCP_TABLE_FULL (64 connections with the
 * peer were asked for here), NCP_QUEUE_FULL (256 or more commands are queued), NCP_OUT_OF_MEMORY. */
uint32_t ncp_ask_send(struct ncp_host *host, uint8_t peer, uint32_t local, uint32_t remote, uint8_t size, uint32_t room);

/* Asks to receive at the socket `local` here from the socket `remote` of the peer, on the lowest free link, with room
 * for `room` held bits. Queues an RTS. Allocates the room.
 * Errors, in order: NCP_UNKNOWN_PEER, NCP_NOT_UP, NCP_BAD_SEX (`local` has to be even, `remote` odd), NCP_BAD_ROOM,
 * NCP_ALREADY_ASKED, NCP_CLOSING, NCP_TABLE_FULL, NCP_QUEUE_FULL, NCP_OUT_OF_MEMORY, each as in ncp_ask_send. */
uint32_t ncp_ask_receive(struct ncp_host *host, uint8_t peer, uint32_t local, uint32_t remote, uint32_t room);

/* Queues text to be sent, after the text that is queued: `bits` bits in `len` bytes.
 * Errors, in order: NCP_TOO_LONG, NCP_SHORT_BYTES, NCP_SPARE_NOT_ZERO, NCP_UNKNOWN_PEER, NCP_NOT_UP, NCP_NO_ENTRY,
 * NCP_CLOSING, NCP_NOT_OPEN, NCP_WRONG_END (a receiver), NCP_NOT_WHOLE (no multiple of the byte size), NCP_NO_ROOM. */
uint32_t ncp_give(struct ncp_host *host, uint8_t peer, uint32_t local, uint32_t remote, const uint8_t *bytes, size_t len, size_t bits);

/* Reads held text, the oldest first, into the front of `out` (`len` bytes), and sets `*bits`: as many whole bytes of
 * the connection's size as are held and fit one message, at most `bytes` of them (UINT32_MAX for no limit).
 * Emptying a closing receiver queues its CLS. If 512 commands are queued already, the host goes down with the peer
 * instead. Either way the text is returned.
 * Errors, in order: NCP_SHORT_BUFFER (fewer than NCP_LONGEST_MESSAGE), NCP_UNKNOWN_PEER, NCP_NOT_UP, NCP_NO_ENTRY,
 * NCP_CLOSING (left), NCP_NOT_OPEN (never opened), NCP_WRONG_END (a sender). */
uint32_t ncp_take(struct ncp_host *host, uint8_t peer, uint32_t local, uint32_t remote, uint32_t bytes, uint8_t *out, size_t len, size_t *bits);

/* Allows the sender `messages` messages and `bits` bits more. Queues an ALL.
 * Errors, in order: NCP_UNKNOWN_PEER, NCP_NOT_UP, NCP_NO_ENTRY, NCP_CLOSING, NCP_NOT_OPEN, NCP_WRONG_END (a sender),
 * NCP_TOO_MUCH (for the room, or for a counter), NCP_QUEUE_FULL. */
uint32_t ncp_allocate(struct ncp_host *host, uint8_t peer, uint32_t local, uint32_t remote, uint16_t messages, uint32_t bits);

/* Asks the sender to give back `fm` 128ths of its messages and `fb` 128ths of its bits. Queues a GVB.
 * Errors, in order: NCP_UNKNOWN_PEER, NCP_NOT_UP, NCP_NO_ENTRY, NCP_CLOSING, NCP_NOT_OPEN, NCP_WRONG_END (a sender),
 * NCP_BUSY (the last one has had no RET), NCP_QUEUE_FULL. */
uint32_t ncp_call_back(struct ncp_host *host, uint8_t peer, uint32_t local, uint32_t remote, uint8_t fm, uint8_t fb);

/* Interrupts the other side. Queues an INS if this side sends, else an INR.
 * Errors, in order: NCP_UNKNOWN_PEER, NCP_NOT_UP, NCP_NO_ENTRY, NCP_CLOSING, NCP_NOT_OPEN, NCP_QUEUE_FULL. */
uint32_t ncp_interrupt(struct ncp_host *host, uint8_t peer, uint32_t local, uint32_t remote);

/* Closes this side of a connection and drops what it stores. Queues a CLS, but while a sender's text is unanswered
 * only after its RFNM.
 * Errors, in order: NCP_UNKNOWN_PEER, NCP_NOT_UP, NCP_NO_ENTRY, NCP_CLOSING (left, or leaving at a sender),
 * NCP_QUEUE_FULL (even if the CLS would not be queued yet). */
uint32_t ncp_close(struct ncp_host *host, uint8_t peer, uint32_t local, uint32_t remote);

/* Asks the peer to echo a byte. Queues an ECO.
 * Errors, in order: NCP_UNKNOWN_PEER, NCP_NOT_UP, NCP_BUSY (the last one has had no ERP), NCP_QUEUE_FULL. */
uint32_t ncp_echo(struct ncp_host *host, uint8_t peer, uint8_t byte);

/* Makes the messages to a peer ready again that are held since a Destination Dead.
 * Error: NCP_UNKNOWN_PEER. */
uint32_t ncp_wake(struct ncp_host *host, uint8_t peer);

/* Makes each unanswered message to a peer ready again. For an IMP that restarted and answers nothing that it had. A
 * message that had been delivered then arrives twice: ncp_unacknowledged says if one may (docs/EMBEDDING.md).
 * Error: NCP_UNKNOWN_PEER. */
uint32_t ncp_restart(struct ncp_host *host, uint8_t peer);

/* Reads a connection.
 * Errors, in order: NCP_UNKNOWN_PEER, NCP_NO_ENTRY. */
uint32_t ncp_state(struct ncp_host *host, uint8_t peer, uint32_t local, uint32_t remote, struct ncp_connection *out);

/* Compares a connection with `*seen`: sets `*out` to what changed, and `*seen` to how the connection is now. `*seen`
 * is all 0 and false if there is no connection, and has to be so before the first look.
 * A field is set exactly if the two looks differ in that respect. So rare looks miss nothing that lasts; if something
 * changed twice in between, only the final state counts. You may look after each call and each message. A reset ends
 * all connections with a peer: `resets` of `struct ncp_arrived` says that one arrived.
 * Error: NCP_UNKNOWN_PEER. */
uint32_t ncp_changes(struct ncp_host *host, uint8_t peer, uint32_t local, uint32_t remote, struct ncp_connection *seen, struct ncp_changes *out);

/* The connection at index `place`, from 0: sets its sockets, here and there, and its state. They are sorted by the
 * local socket, and then by the remote one; over all indexes each connection appears once. An entry with `heard` set
 * and `asked` clear is a request of the peer.
 * Errors, in order: NCP_UNKNOWN_PEER, NCP_NOTHING (past the end). */
uint32_t ncp_connection_at(struct ncp_host *host, uint8_t peer, uint32_t place, uint32_t *local, uint32_t *remote, struct ncp_connection *out);

/* The room of a connection in bits: what was asked for here, and 0 before that. A sender may give as much as that less
 * the stored bits, and a receiver may allow that less the stored and the outstanding ones.
 * Errors, in order: NCP_UNKNOWN_PEER, NCP_NO_ENTRY. */
uint32_t ncp_room(struct ncp_host *host, uint8_t peer, uint32_t local, uint32_t remote, uint32_t *bits);

/* The sockets of the connection on a link: with `sends` of the one that sends here, which ALL, GVB and INR are for, and
 * else of the one that receives here, which RET, INS and texts are for.
 * Errors, in order: NCP_UNKNOWN_PEER, NCP_NOTHING (the link belongs to none). */
uint32_t ncp_pair_on(struct ncp_host *host, uint8_t peer, bool sends, uint8_t link, uint32_t *local, uint32_t *remote);

/* Whether the message to a peer on a link is held since a Destination Dead, and so needs ncp_wake. False if there is
 * no host, or no such peer. */
bool ncp_is_held(struct ncp_host *host, uint8_t peer, uint8_t link);

/* Whether a connection is open: both requests were made, and this side is not closing. False if there is no host, or
 * no such connection. */
bool ncp_is_open(struct ncp_host *host, uint8_t peer, uint32_t local, uint32_t remote);

/* Reads the flags for a peer.
 * Error: NCP_UNKNOWN_PEER. */
uint32_t ncp_phase(struct ncp_host *host, uint8_t peer, struct ncp_flags *out);

/* Whether the host is up with a peer: no flag is set. False if there is no host, or no such peer. */
bool ncp_is_up(struct ncp_host *host, uint8_t peer);

/* The byte of the last ERP that answered an echo.
 * Errors, in order: NCP_UNKNOWN_PEER, NCP_NOTHING (none did). */
uint32_t ncp_echoed(struct ncp_host *host, uint8_t peer, uint8_t *byte);

/* The ERR from a peer at index `place`: of the last sixteen, the oldest at 0.
 * Errors, in order: NCP_UNKNOWN_PEER, NCP_NOTHING (fewer are kept). */
uint32_t ncp_error(struct ncp_host *host, uint8_t peer, uint32_t place, struct ncp_err_command *out);

/* Reads the counts of a peer.
 * Error: NCP_UNKNOWN_PEER. */
uint32_t ncp_counts(struct ncp_host *host, uint8_t peer, struct ncp_peer_counts *out);

/* Reads the counts of messages from no peer. */
uint32_t ncp_ignored(struct ncp_host *host, struct ncp_ignored_counts *out);

/* The command at index `place` of those queued for a peer, the next one at 0: writes its `*bytes` bytes to the front
 * of `out` (`len` bytes).
 * Errors, in order: NCP_SHORT_BUFFER (fewer than NCP_LONGEST_COMMAND), NCP_NOTHING (fewer are queued, or no such
 * peer). */
uint32_t ncp_waiting(struct ncp_host *host, uint8_t peer, uint32_t place, uint8_t *out, size_t len, size_t *bytes);

/* The message to a peer that is kept on a link: it is to be sent again, is unanswered, or is held since a Destination
 * Dead. Writes its `*bits` bits to the front of `out` (`len` bytes).
 * Errors, in order: NCP_SHORT_BUFFER (fewer than NCP_LONGEST_MESSAGE), NCP_NOTHING (none is kept, or no such peer). */
uint32_t ncp_kept(struct ncp_host *host, uint8_t peer, uint8_t link, uint8_t *out, size_t len, size_t *bits);

/* Sets `*what` to NCP_UNACKNOWLEDGED_..: whether a message to a peer is unanswered, or is to be sent again, and whether
 * it has an RST or an RRP. ncp_restart does not change it.
 * Error: NCP_UNKNOWN_PEER. */
uint32_t ncp_unacknowledged(struct ncp_host *host, uint8_t peer, uint32_t *what);

/* The command at index `place`, from 0, of a control message that arrived, of `bits` bits in `len` bytes: writes its
 * `*size` bytes to the front of `out` (`room` bytes). Needs no host.
 * So a server reads who asks: of an RTS (the first byte is 1) and of an STR (2) bytes 1 to 4 are the peer's socket and
 * 5 to 8 the one here, the most significant byte first; byte 9 is the link, of an STR the byte size. docs/PROTOCOL.md
 * has the other commands.
 * Errors, in order: NCP_NO_POINTER, NCP_TOO_LONG, NCP_SHORT_BYTES, NCP_SPARE_NOT_ZERO, NCP_SHORT_BUFFER (fewer than
 * NCP_LONGEST_COMMAND), NCP_NOTHING (fewer commands, or no control message). */
uint32_t ncp_command(const uint8_t *bytes, size_t len, size_t bits, uint32_t place, uint8_t *out, size_t room, size_t *size);

/* The subnet between hosts. You decide for each message that it accepted whether it is delivered, lost, or finds its
 * destination dead, and when. Then the subnet answers its sender, and the next message on that link may be accepted. A
 * message is delivered at most once and answered once: by RFNM if it was delivered, else by another type (BBN 1822,
 * section 3). */

/* Makes a subnet between these hosts, `count` of them, each with each other, with nothing in transit. Allocates room
 * for 256 messages each way, some 14 MiB for eight hosts; no other function of a subnet allocates. `subnet` may be
 * empty but not null; on success a subnet that it had is freed.
 * Error: NCP_NEW_OUT_OF_MEMORY. */
uint32_t ncp_subnet_new(struct ncp_subnet *subnet, const uint8_t *hosts, size_t count);

/* Frees the subnet, if there is one. The struct is then NCP_EMPTY. */
void ncp_subnet_free(struct ncp_subnet *subnet);

/* Accepts a message that the host `from` sends, as ncp_next_output wrote it: copies `bits` bits in `len` bytes. The
 * leader names the destination and the link.
 * Errors, in order: NCP_TOO_LONG, NCP_SHORT_BYTES, NCP_SPARE_NOT_ZERO, NCP_SUBNET_NOT_REGULAR (shorter than a leader,
 * or not of type 0), NCP_SUBNET_NO_HOST (`from` and the destination are not two hosts of the subnet),
 * NCP_SUBNET_OCCUPIED (the last message on this link is unanswered). */
uint32_t ncp_subnet_accept(struct ncp_subnet *subnet, uint8_t from, const uint8_t *bytes, size_t len, size_t bits);

/* Delivers the message on a link from one host to another: writes its `*bits` bits to the front of `out` (`len`
 * bytes), for ncp_receive at the destination. They are the bits that were accepted, but the leader names the sender.
 * Errors, in order: NCP_SHORT_BUFFER (fewer than NCP_LONGEST_MESSAGE), NCP_NOTHING (none was accepted, or it was
 * delivered or lost, or found its destination dead). */
uint32_t ncp_subnet_deliver(struct ncp_subnet *subnet, uint8_t from, uint8_t to, uint8_t link, uint8_t *out, size_t len, size_t *bits);

/* Loses the message on a link.
 * Error: NCP_NOTHING, as in ncp_subnet_deliver. */
uint32_t ncp_subnet_lose(struct ncp_subnet *subnet, uint8_t from, uint8_t to, uint8_t link);

/* Lets the message on a link find its destination dead.
 * Error: NCP_NOTHING, as in ncp_subnet_deliver. */
uint32_t ncp_subnet_dead(struct ncp_subnet *subnet, uint8_t from, uint8_t to, uint8_t link);

/* Answers the message on a link, and frees the link: writes the answer to the front of `out` (`len` bytes), for
 * ncp_receive at the host `from`, and sets `*bits` to 32. Its type is 5 (RFNM) if the message was delivered, 9
 * (Incomplete Transmission) if it was lost, and 7 (Destination Dead) if it found its destination dead.
 * Errors, in order: NCP_SHORT_BUFFER (fewer than NCP_LONGEST_MESSAGE), NCP_NOTHING (none was accepted, or it may still
 * be delivered). */
uint32_t ncp_subnet_answer(struct ncp_subnet *subnet, uint8_t from, uint8_t to, uint8_t link, uint8_t *out, size_t len, size_t *bits);

/* The name of a number that functions return, as "NoEntry": writes `*bytes` letters to the front of `out` (`len`
 * bytes), without a zero after them.
 * Errors, in order: NCP_NO_POINTER, NCP_NOTHING (no function returns this number), NCP_SHORT_BUFFER (shorter than the
 * name; NCP_LONGEST_NAME bytes are enough). */
uint32_t ncp_name(uint32_t code, char *out, size_t len, size_t *bytes);

/* The same name as a static string; "" if no function returns this number. */
const char *ncp_word(uint32_t code);

/* The version of the library: the NCP_VERSION with which it was built. */
const char *ncp_version(void);

/* A host in memory that you provide. These two are in ncp.c alone, the library as one C file, if NCP_IN is defined when it
 * and what calls them are compiled. */
#ifdef NCP_IN
/* How many bytes are enough for a host of `count` peers while at most `connections` connections that were asked for here
 * have room, `room` bits each. 0 if no host has that many peers. Rooms of several sizes may want more. */
size_t ncp_size(size_t count, size_t connections, uint32_t room);

/* Makes a host as ncp_new does, in `size` bytes of memory that you provide: do not touch them before ncp_free. All that is
 * allocated for this host later is from them too, and freed memory is used again. If they are full, the call that needs
 * more returns its error for lack of memory. So do ncp_copy, whose copy is in the same memory, ncp_load, which needs room
 * for both hosts for a while, and ncp_save, which needs some four times what it writes. Hosts in the same memory count as
 * one for threads. `host` has to be empty.
 * Errors, in order: NCP_BUSY (`host` is not empty), NCP_NEW_BAD_PEERS, NCP_NEW_OUT_OF_MEMORY (`size` is too small). */
uint32_t ncp_new_in(struct ncp_host *host, uint8_t me, const uint8_t *peers, size_t count, void *memory, size_t size);
#endif

/* The structs above by their names, in their order: NCP_STRUCTS(EACH) is EACH(ncp_host) EACH(ncp_subnet) and so on. */
#define NCP_STRUCTS(EACH) \
    EACH(ncp_host) EACH(ncp_subnet) EACH(ncp_arrived) EACH(ncp_flags) EACH(ncp_peer_counts) EACH(ncp_ignored_counts) EACH(ncp_err_command) \
    EACH(ncp_connection) EACH(ncp_changes)

/* The sizes in bytes that the structs of NCP_STRUCTS have in the library, in this order, and then a 0. A program that
 * has the structs from elsewhere than this header, as in another language, compares them before its first call. */
const uint32_t *ncp_sizes(void);

#ifdef __cplusplus
}
#endif

#endif
