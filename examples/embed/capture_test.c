/* Captures of programs that are killed: `capture_test FILE KILLS`. Each record is one write, so a program loses none that it has written,
 * and its file ends after a record. Only the record of an unfinished write may be cut, at a page boundary of the file. It prints nothing
 * if all is correct. */
#define _POSIX_C_SOURCE 200809L
#include "ncp_capture.h"
#include <errno.h>
#include <fcntl.h>
#include <signal.h>
#include <stdlib.h>
#include <sys/socket.h>
#include <sys/stat.h>
#include <sys/wait.h>
#include <unistd.h>

enum { HEAD = 4, LONGEST = 1024, MOST_RECORDS = 200 /* are written before a kill */, ROOM = 1 << 18 };

static uint8_t stream[ROOM]; /* the output of a program that is not killed */
static uint8_t found[ROOM];
static size_t ends[ROOM / HEAD]; /* where the head of the stream ends, and each of its records */
static size_t records;
static uint32_t chance;

static void fail(const char *what, int line)
{
    printf("line %d: %s\n", line, what);
    exit(1);
}
#define HOLDS(what) \
    if (!(what)) fail(#what, __LINE__)

/* A number below `most`, by chance: the next of its seed. */
static uint32_t pick(uint32_t most)
{
    chance = 1664525 * chance + 1013904223;
    return (chance >> 8) % most;
}

/* The same records for the same seed. */
static size_t next_record(uint8_t record[HEAD + LONGEST])
{
    const uint32_t bits = pick(4) == 0 ? pick(8 * LONGEST + 1) : pick(400), len = (bits + 7) / 8;
    record[0] = pick(2) == 0 ? NCP_TO_IMP : NCP_FROM_IMP;
    record[1] = (uint8_t)pick(256), record[2] = (uint8_t)(bits >> 8), record[3] = (uint8_t)bits;
    for (uint32_t place = 0; place < len; place++) record[HEAD + place] = (uint8_t)pick(256);
    if (len > 0) record[HEAD + len - 1] &= (uint8_t)(0xff << (8 * len - bits));
    return HEAD + len;
}

/* Makes the stream of a seed. */
static void make_stream(uint32_t seed)
{
    chance = seed;
    memcpy(stream, "NCPJ", HEAD);
    ends[0] = HEAD;
    for (records = 0; ends[records] + HEAD + LONGEST <= ROOM; records++) ends[records + 1] = ends[records] + next_record(stream + ends[records]);
}

/* A program that writes the stream, reports each record that it has written, and waits to be killed. */
static void write_until_killed(FILE *file, int said)
{
    if (!ncp_capture_begin(file)) _exit(2);
    for (size_t place = 0; place < records; place++) {
        const uint8_t *record = stream + ends[place];
        const size_t bits = (size_t)record[2] << 8 | record[3];
        if (!ncp_capture_message(file, record[0] == NCP_TO_IMP ? NCP_TO_IMP : NCP_FROM_IMP, record[1], record + HEAD, bits)) _exit(2);
        if (said >= 0 && write(said, "", 1) != 1) _exit(2);
    }
    for (;;) pause();
}

/* Starts that program over a file, and returns where it reports. */
static pid_t start(FILE *file, int ends_of_pipe[2], bool says)
{
    const pid_t program = fork();
    HOLDS(program >= 0);
    if (program == 0) {
        close(ends_of_pipe[0]);
        write_until_killed(file, says ? ends_of_pipe[1] : -1);
    }
    close(ends_of_pipe[1]);
    return program;
}

/* Reads until this many bytes have arrived, kills the program, and reads the rest. Returns how many bytes there were. */
static size_t kill_after(pid_t program, int from, size_t wanted)
{
    size_t len = 0;
    ssize_t more = 1;
    int status;
    bool is_killed = false;
    while (more > 0) {
        if (len >= wanted && !is_killed) is_killed = kill(program, SIGKILL) == 0;
        more = read(from, found + len, ROOM - len);
        HOLDS(more >= 0);
        len += (size_t)more;
    }
    HOLDS(waitpid(program, &status, 0) == program && WIFSIGNALED(status));
    close(from);
    return len;
}

/* How many records of the stream these bytes, which begin it, have. `*rest` is what is left after the last one. */
static size_t records_in(size_t len, size_t *rest)
{
    size_t count = 0;
    HOLDS(len >= ends[0] && memcmp(found, stream, len) == 0);
    while (count < records && ends[count + 1] <= len) count++;
    *rest = len - ends[count];
    return count;
}

/* A program that is killed while it writes a file: all that it had written is there, and at most the record that it was writing. */
static void kill_writer_of_file(const char *path)
{
    const size_t page = (size_t)sysconf(_SC_PAGESIZE);
    size_t written, count, len, rest;
    int said[2];
    FILE *file = fopen(path, "wb");
    HOLDS(file != NULL && pipe(said) == 0);
    written = kill_after(start(file, said, true), said[0], pick(MOST_RECORDS));
    fclose(file);
    file = fopen(path, "rb");
    HOLDS(file != NULL);
    len = fread(found, 1, ROOM, file);
    fclose(file);
    if (len == 0 && written == 0) return; /* killed before it began */
    count = records_in(len, &rest);
    HOLDS(count == written || count == written + 1);
    HOLDS(rest == 0 || (count == written && len % page == 0));
}

/* And while it writes a pipe: the output ends after a record. */
static void kill_writer_of_pipe(void)
{
    size_t len, rest;
    int ends_of_pipe[2];
    FILE *file;
    HOLDS(pipe(ends_of_pipe) == 0);
    file = fdopen(ends_of_pipe[1], "wb");
    HOLDS(file != NULL);
    len = kill_after(start(file, ends_of_pipe, false), ends_of_pipe[0], pick(40 * MOST_RECORDS));
    fclose(file);
    if (len == 0) return;
    records_in(len, &rest);
    HOLDS(rest == 0);
}

/* Each write is one packet of a socket. */
static bool is_packet(int socket, const uint8_t *bytes, size_t len)
{
    const ssize_t got = recv(socket, found, ROOM, MSG_DONTWAIT);
    return got == (ssize_t)len && memcmp(found, bytes, len) == 0;
}

/* Each record is one write, regardless of stdio's buffering. With too many bits nothing is written, and after a failed write nothing more. */
static void each_is_one_write(int kept_back)
{
    static uint8_t record[HEAD + LONGEST] = {NCP_FROM_IMP, 255, 8 * LONGEST >> 8, 0};
    static const uint8_t empty[HEAD] = {NCP_TO_IMP, 1, 0, 0}, longer[LONGEST + 1] = {0};
    int both[2];
    FILE *file;
    memset(record + HEAD, 0x5a, LONGEST);
    HOLDS(socketpair(AF_UNIX, SOCK_SEQPACKET, 0, both) == 0);
    file = fdopen(both[0], "wb");
    HOLDS(file != NULL && setvbuf(file, NULL, kept_back, kept_back == _IONBF ? 0 : BUFSIZ) == 0);
    HOLDS(ncp_capture_begin(file) && is_packet(both[1], (const uint8_t *)"NCPJ", HEAD));
    HOLDS(ncp_capture_message(file, NCP_FROM_IMP, 255, record + HEAD, 8 * LONGEST) && is_packet(both[1], record, sizeof record));
    HOLDS(!ncp_capture_message(file, NCP_TO_IMP, 1, longer, 8 * LONGEST + 1));
    HOLDS(ncp_capture_message(file, NCP_TO_IMP, 1, longer, 0) && is_packet(both[1], empty, sizeof empty));
    HOLDS(recv(both[1], found, ROOM, MSG_DONTWAIT) < 0 && errno == EAGAIN);
    fclose(file);
    close(both[1]);
}

/* A file without space takes nothing, and that is returned, whether stdio keeps back or not. */
static void without_space(int kept_back)
{
    const uint8_t text = 'x';
    FILE *full = fopen("/dev/full", "wb");
    HOLDS(full != NULL && setvbuf(full, NULL, kept_back, kept_back == _IONBF ? 0 : BUFSIZ) == 0);
    HOLDS(!ncp_capture_begin(full) && !ncp_capture_message(full, NCP_TO_IMP, 1, &text, 8));
    fclose(full);
}

/* After a write that failed nothing more is written: here a pipe is full, and then is empty again. */
static void after_a_failed_write(void)
{
    static const uint8_t nothing[LONGEST] = {0};
    int both[2];
    size_t count = 0;
    FILE *file;
    HOLDS(pipe(both) == 0 && fcntl(both[1], F_SETFL, O_NONBLOCK) == 0 && fcntl(both[0], F_SETFL, O_NONBLOCK) == 0);
    file = fdopen(both[1], "wb");
    HOLDS(file != NULL && ncp_capture_begin(file));
    while (count < ROOM && ncp_capture_message(file, NCP_TO_IMP, 1, nothing, 8 * LONGEST)) count++;
    HOLDS(count > 0 && count < ROOM);
    while (read(both[0], found, ROOM) > 0) continue;
    HOLDS(!ncp_capture_message(file, NCP_TO_IMP, 1, nothing, 8) && read(both[0], found, ROOM) < 0);
    fclose(file);
    close(both[0]);
}

int main(int argc, char **argv)
{
    if (argc != 3) {
        fputs("usage: capture_test FILE KILLS\n", stderr);
        return 2;
    }
    each_is_one_write(_IONBF);
    each_is_one_write(_IOFBF);
    without_space(_IONBF);
    without_space(_IOFBF);
    after_a_failed_write();
    for (uint32_t seed = 1; seed <= strtoul(argv[2], NULL, 10); seed++) {
        make_stream(seed);
        if (seed % 2 == 0) kill_writer_of_file(argv[1]);
        else kill_writer_of_pipe();
    }
    return 0;
}
