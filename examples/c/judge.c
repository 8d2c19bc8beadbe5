/* Judges a trace from C: reads it from standard input in small pieces and writes the report to standard output, over
 * buffers that this program owns. Then it shows the direct calls, on standard error, over buffers of their own.
 *
 *     cc -std=c11 -I include examples/c/judge.c crates/kinkhost/out/libkinkhost.a -o judge
 *     ./judge < examples/night.trace
 *
 * Status 0: every line was done. 1: some line was not, or the trace ends in an unfinished line. 2: the trace could not
 * be read, the report not be written, or the opening was refused; one line on standard error says which. */
#include <errno.h>
#include <signal.h>
#include <stdio.h>
#include <string.h>

#include "kinkhost.h"

/* The pool of the paper's night; another one is -DGRANULES=.. and so on, between the header's limits. */
#ifndef GRANULES
#define GRANULES 16 /* S */
#endif
#ifndef REDZONE
#define REDZONE 2 /* R, in granules */
#endif
#ifndef QUARANTINE
#define QUARANTINE 16 /* Q, in bytes */
#endif
#ifndef ROWS
#define ROWS 4
#endif

enum { NUMBERS = ROWS * KINKHOST_ROW_NUMBERS, PIECE = 50, ROOM = 2 * KINKHOST_ANSWER_BYTES };
enum outcome { DONE = 0, NOT_DONE = 1, FAILED = 2 };

/* All that a watcher works on. The library keeps nothing of it from one call to the next. */
struct pool {
    uint8_t shadow[GRANULES];
    uint32_t table[NUMBERS];
    struct kinkhost_session session;
};

static enum outcome failed(const char *what)
{
    fprintf(stderr, "judge: %s: %s\n", what, strerror(errno));
    return FAILED;
}

static enum outcome refused(const char *what, unsigned status)
{
    fprintf(stderr, "judge: %s refused, %02u\n", what, status);
    return FAILED;
}

static enum outcome open_pool(struct pool *pool)
{
    struct kinkhost_opened opened =
        kinkhost_open(pool->shadow, GRANULES, pool->table, NUMBERS, REDZONE, QUARANTINE);
    pool->session = opened.session;
    return opened.status == KINKHOST_DONE ? DONE : refused("opening", opened.status);
}

/* The status of an answer in the report, its first two digits. */
static int status_of(const uint8_t *answer)
{
    return (answer[0] - '0') * 10 + (answer[1] - '0');
}

/* Feeds one piece. Each call is offered what the one before it did not take; the room holds an answer at least, so that
 * each call takes a byte at least and this ends. kinkhost_feed is the same with the session by value. */
static enum outcome feed(struct pool *pool, const uint8_t *piece, size_t length)
{
    enum outcome outcome = DONE;
    while (length > 0) {
        uint8_t room[ROOM];
        struct kinkhost_counts fed = kinkhost_feed_in_place(&pool->session, pool->shadow, GRANULES, pool->table,
                                                            NUMBERS, piece, length, room, sizeof room);
        if (fed.status != KINKHOST_DONE)
            return refused("a piece", fed.status);
        piece += fed.taken;
        length -= fed.taken;
        for (size_t answer = 0; answer < fed.wrote; answer += KINKHOST_ANSWER_BYTES)
            if (status_of(room + answer) != KINKHOST_DONE)
                outcome = NOT_DONE;
        if (fwrite(room, 1, fed.wrote, stdout) != fed.wrote)
            return failed("the report cannot be written");
    }
    return outcome;
}

static enum outcome judge(struct pool *pool)
{
    enum outcome outcome = DONE;
    uint8_t piece[PIECE];
    size_t length;
    while ((length = fread(piece, 1, sizeof piece, stdin)) > 0) {
        enum outcome fed = feed(pool, piece, length);
        if (fed == FAILED)
            return FAILED;
        if (fed == NOT_DONE)
            outcome = NOT_DONE;
    }
    if (ferror(stdin))
        return failed("the trace cannot be read");
    if (fflush(stdout) != 0)
        return failed("the report cannot be written");
    return kinkhost_unfinished(pool->session).value == 0 ? outcome : NOT_DONE;
}

static void show(const char *call, struct kinkhost_reply reply)
{
    fprintf(stderr, "%-28s %02u %02x %08lx\n", call, reply.status, reply.kind, (unsigned long)reply.value);
}

/* The same watcher without text: a grant, an access one past it, a release. */
static enum outcome direct_calls(struct pool *pool)
{
    struct kinkhost_reply block = kinkhost_grant(pool->session, pool->shadow, GRANULES, pool->table, NUMBERS, 13);
    show("grant of 13 bytes:", block);
    show("read of 1 byte one past it:", kinkhost_access(pool->session, pool->shadow, GRANULES, pool->table, NUMBERS,
                                                        block.value + 13, 1));
    show("release of it:",
         kinkhost_release(pool->session, pool->shadow, GRANULES, pool->table, NUMBERS, block.value));
    return ferror(stderr) ? FAILED : DONE;
}

int main(void)
{
    static struct pool traced, direct;
#ifdef SIGPIPE
    signal(SIGPIPE, SIG_IGN); /* a reader that went away is an error of writing, not a silent end */
#endif
    if (open_pool(&traced) != DONE || open_pool(&direct) != DONE)
        return FAILED;
    enum outcome outcome = judge(&traced);
    return outcome != FAILED && direct_calls(&direct) == FAILED ? FAILED : (int)outcome;
}
