/* SPDX-License-Identifier: MIT */
/* Message files of version 2 (docs/FORMATS.md): captures at the interfaces of hosts and their IMPs, for `ncp show`,
 * `ncp check` and Wireshark. For C99 and C++. Of the C library it needs fwrite, fflush, ferror and memcpy.
 *
 *     FILE *file = fopen("mine.ncp", "wb");
 *     ncp_capture_begin(file);
 *     ...
 *     if (ncp_next_output(&host, out, sizeof out, &bits) == NCP_DONE) ncp_capture_message(file, NCP_TO_IMP, 1, out, bits);
 *
 * Each function returns whether all was written. After a failed write it writes nothing, so no record follows a partial one.
 *
 * Each record is written at once, in one write. So a program that is killed loses none, and its file ends after a record.
 * There is one exception: if the program is killed during a write to a file, Linux may stop it at the end of a page
 * (4,096 bytes) inside the record. Then `ncp` reads all records before it, and reports Truncated. A pipe to another
 * program (`cat >mine.ncp`) has no such exception.
 */
#ifndef NCP_CAPTURE_H
#define NCP_CAPTURE_H

#include <stdbool.h>
#include <stddef.h>
#include <stdint.h>
#include <stdio.h>
#include <string.h>

/* The direction of a message at the interface of a host. */
enum ncp_direction {
    NCP_TO_IMP = 0x48,  /* sent: the host gives it to its IMP */
    NCP_FROM_IMP = 0x49 /* received */
};

/* Lengths in bytes: of the head of a record, and of the longest message. */
enum { NCP_RECORD_HEAD = 4, NCP_RECORD_LONGEST = 1024 };

/* Writes bytes, and flushes them. */
static inline bool ncp_capture_write(FILE *file, const void *bytes, size_t len)
{
    return !ferror(file) && fwrite(bytes, 1, len, file) == len && fflush(file) == 0;
}

/* Writes the head of a file, before any message. */
static inline bool ncp_capture_begin(FILE *file)
{
    return ncp_capture_write(file, "NCPJ", 4);
}

/* Writes a message at the interface of the host `at`: `bits` bits, at most 8192, in bytes whose spare bits are zero. */
static inline bool ncp_capture_message(FILE *file, enum ncp_direction direction, uint8_t at, const uint8_t *bytes, size_t bits)
{
    uint8_t record[NCP_RECORD_HEAD + NCP_RECORD_LONGEST] = {(uint8_t)direction, at, (uint8_t)(bits >> 8), (uint8_t)bits};
    const size_t len = (bits + 7) / 8;
    if (bits > 8 * (size_t)NCP_RECORD_LONGEST) return false;
    if (len > 0) memcpy(record + NCP_RECORD_HEAD, bytes, len);
    return ncp_capture_write(file, record, NCP_RECORD_HEAD + len);
}

#endif
