/* The bridge between the second program and the proved library: calls on standard input, outcomes on standard output.
 *
 * All numbers are little-endian. A request is
 *
 *     what u8 (1 open, 2 grant, 3 release, 4 access, 5 feed, 6 unfinished, 7 map32, 8 map64, 9 replay,
 *     10 feed in place, 11 replay in place)
 *     session: granules u64, rows u64, redzone u64, quarantine u32, unfinished u64, line 18 bytes
 *     two numbers u64: redzone, quarantine (open); size (grant); address (release, maps); address, length (access)
 *     shadow: length u32, bytes; table: length u32, u32 each; piece: length u32, bytes; room: length u32, bytes
 *     steps: count u32, then for each the piece length u32 and the room length u32
 *
 * and an answer is
 *
 *     what u8, touched u8 (a bit for each buffer whose canary was changed: shadow, table, piece, room, session),
 *     status u8, kind or region u8, value u64, session, taken u64, wrote u64, shadow, table, piece and room as above,
 *     steps: count u32, then for each the status u8, taken u64 and wrote u64
 *
 * A feed is one step over the whole piece and room. A replay feeds step by step: each is offered at most its piece
 * length of what was not taken yet, and the next part of the room, of its room length. In place, each step is lent the
 * one session, which stays where it is; the answer's session is what then lies there.
 *
 * Every buffer, the session too, is lent so that it ends where an unreadable page begins and starts after canary
 * bytes, so that a touch outside the lent part ends the bridge by a signal or is told in `touched`. Ends with 0 at the
 * end of input, with 3 on a broken request or a failing system call. */
#define _DEFAULT_SOURCE
#include <stdio.h>
#include <stdlib.h>
#include <string.h>
#include <sys/mman.h>
#include <unistd.h>

#include "kinkhost.h"

enum { OPEN = 1, GRANT, RELEASE, ACCESS, FEED, UNFINISHED, MAP32, MAP64, REPLAY, FEED_IN_PLACE, REPLAY_IN_PLACE };

enum { SHADOW, TABLE, PIECE, ROOM, SESSION, BUFFERS };

enum { CANARIES = 64, CAPACITY = 1 << 22, TEXT_CAPACITY = 1 << 24, STEPS = 1 << 20 };

/* A guarded buffer: `end` is where the unreadable page begins, `lent` where the lent part begins. */
struct guard {
    uint8_t *end;
    uint8_t *lent;
    size_t bytes;
};

struct step {
    uint32_t piece;
    uint32_t room;
    uint8_t status;
    uint64_t taken;
    uint64_t wrote;
};

/* A call and then its outcome; its session is the lent one. */
struct call {
    uint8_t what;
    struct kinkhost_session *session;
    uint64_t numbers[2];
    uint32_t table_length;
    uint32_t text_length;
    uint32_t rooms_length;
    uint32_t steps_length;
    uint8_t touched;
    uint8_t status;
    uint8_t kind;
    uint64_t value;
    uint64_t taken;
    uint64_t wrote;
};

static struct guard guards[BUFFERS];
static uint8_t text[TEXT_CAPACITY];
static uint8_t rooms[TEXT_CAPACITY];
static struct step steps[STEPS];

static _Noreturn void fail(const char *why)
{
    fprintf(stderr, "bridge: %s\n", why);
    exit(3);
}

static void get(uint8_t *bytes, size_t length)
{
    if (length != 0 && fread(bytes, 1, length, stdin) != length) {
        fail("the input ends inside a request");
    }
}

static uint64_t get_number(size_t length)
{
    uint8_t bytes[8];
    uint64_t number = 0;
    get(bytes, length);
    for (size_t at = length; at > 0; at--) {
        number = number << 8 | bytes[at - 1];
    }
    return number;
}

static uint32_t get_length(size_t most)
{
    uint64_t length = get_number(4);
    if (length > most) {
        fail("a request is too long");
    }
    return (uint32_t)length;
}

static void put(const uint8_t *bytes, size_t length)
{
    if (length != 0 && fwrite(bytes, 1, length, stdout) != length) {
        fail("an answer cannot be written");
    }
}

static void put_number(uint64_t number, size_t length)
{
    uint8_t bytes[8];
    for (size_t at = 0; at < length; at++) {
        bytes[at] = (uint8_t)(number >> (8 * at));
    }
    put(bytes, length);
}

static void guard_buffers(void)
{
    long page = sysconf(_SC_PAGESIZE);
    if (page <= 0 || CAPACITY % page != 0) {
        fail("the page size is unknown");
    }
    for (int which = 0; which < BUFFERS; which++) {
        size_t whole = (size_t)page + CAPACITY + (size_t)page;
        uint8_t *start = mmap(NULL, whole, PROT_READ | PROT_WRITE, MAP_PRIVATE | MAP_ANONYMOUS, -1, 0);
        if (start == MAP_FAILED) {
            fail("no memory for the buffers");
        }
        guards[which].end = start + page + CAPACITY;
        guards[which].lent = guards[which].end;
        if (mprotect(guards[which].end, (size_t)page, PROT_NONE) != 0) {
            fail("a page cannot be guarded");
        }
    }
}

static uint8_t canary(size_t at)
{
    return (uint8_t)(0xc5 ^ (at * 7));
}

/* The lent part of a buffer, so many bytes up to its end, after fresh canaries. */
static uint8_t *lend(int which, size_t bytes)
{
    struct guard *guard = &guards[which];
    if (bytes > CAPACITY) {
        fail("a buffer is too long");
    }
    guard->bytes = bytes;
    guard->lent = guard->end - bytes;
    for (size_t at = 1; at <= CANARIES; at++) {
        *(guard->lent - at) = canary(at);
    }
    return guard->lent;
}

/* Tells which canaries are no longer as laid. */
static uint8_t touched(void)
{
    uint8_t found = 0;
    for (int which = 0; which < BUFFERS; which++) {
        for (size_t at = 1; at <= CANARIES; at++) {
            if (*(guards[which].lent - at) != canary(at)) {
                found |= (uint8_t)(1u << which);
            }
        }
    }
    return found;
}

/* The lent session. Its size is a multiple of its alignment, so that it can end where a page does. No promise is made
 * for the padding between its fields, which is scribbled. */
static struct kinkhost_session *get_session(void)
{
    struct kinkhost_session *session = (struct kinkhost_session *)(void *)lend(SESSION, sizeof *session);
    memset(session, 0xa6, sizeof *session);
    session->granules = get_number(8);
    session->rows = get_number(8);
    session->redzone = get_number(8);
    session->quarantine = (uint32_t)get_number(4);
    session->unfinished = get_number(8);
    get(session->line, sizeof session->line);
    return session;
}

static void put_session(const struct kinkhost_session *session)
{
    put_number(session->granules, 8);
    put_number(session->rows, 8);
    put_number(session->redzone, 8);
    put_number(session->quarantine, 4);
    put_number(session->unfinished, 8);
    put(session->line, sizeof session->line);
}

static void get_call(struct call *call)
{
    call->session = get_session();
    call->numbers[0] = get_number(8);
    call->numbers[1] = get_number(8);
    uint32_t shadow_length = get_length(CAPACITY);
    get(lend(SHADOW, shadow_length), shadow_length);
    call->table_length = get_length(CAPACITY / 4);
    uint32_t *table = (uint32_t *)(void *)lend(TABLE, 4 * (size_t)call->table_length);
    for (size_t at = 0; at < call->table_length; at++) {
        table[at] = (uint32_t)get_number(4);
    }
    call->text_length = get_length(sizeof text);
    get(text, call->text_length);
    call->rooms_length = get_length(sizeof rooms);
    get(rooms, call->rooms_length);
    call->steps_length = get_length(STEPS);
    for (size_t at = 0; at < call->steps_length; at++) {
        steps[at].piece = (uint32_t)get_number(4);
        steps[at].room = (uint32_t)get_number(4);
        steps[at].status = 0xff;
        steps[at].taken = 0;
        steps[at].wrote = 0;
    }
    lend(PIECE, 0);
    lend(ROOM, 0);
}

static void put_outcome(const struct call *call)
{
    const uint32_t *table = (const uint32_t *)(const void *)guards[TABLE].lent;
    put_number(call->what, 1);
    put_number(call->touched, 1);
    put_number(call->status, 1);
    put_number(call->kind, 1);
    put_number(call->value, 8);
    put_session(call->session);
    put_number(call->taken, 8);
    put_number(call->wrote, 8);
    put_number(guards[SHADOW].bytes, 4);
    put(guards[SHADOW].lent, guards[SHADOW].bytes);
    put_number(call->table_length, 4);
    for (size_t at = 0; at < call->table_length; at++) {
        put_number(table[at], 4);
    }
    put_number(call->text_length, 4);
    put(text, call->text_length);
    put_number(call->rooms_length, 4);
    put(rooms, call->rooms_length);
    put_number(call->steps_length, 4);
    for (size_t at = 0; at < call->steps_length; at++) {
        put_number(steps[at].status, 1);
        put_number(steps[at].taken, 8);
        put_number(steps[at].wrote, 8);
    }
    if (fflush(stdout) != 0) {
        fail("an answer cannot be written");
    }
}

/* One feed over copies of a part of the text and of the rooms; what comes back is copied over them. */
static struct kinkhost_counts feed(struct call *call, uint8_t *piece, size_t piece_length, uint8_t *room,
                                   size_t room_length)
{
    uint8_t *shadow = guards[SHADOW].lent;
    size_t shadow_length = guards[SHADOW].bytes;
    uint32_t *table = (uint32_t *)(void *)guards[TABLE].lent;
    struct kinkhost_counts counts;
    uint8_t *lent_piece = lend(PIECE, piece_length);
    uint8_t *lent_room = lend(ROOM, room_length);
    memcpy(lent_piece, piece, piece_length);
    memcpy(lent_room, room, room_length);
    if (call->what == FEED_IN_PLACE || call->what == REPLAY_IN_PLACE) {
        counts = kinkhost_feed_in_place(call->session, shadow, shadow_length, table, call->table_length, lent_piece,
                                        piece_length, lent_room, room_length);
    } else {
        struct kinkhost_fed fed = kinkhost_feed(*call->session, shadow, shadow_length, table, call->table_length,
                                                lent_piece, piece_length, lent_room, room_length);
        *call->session = fed.session;
        counts = (struct kinkhost_counts){fed.status, fed.taken, fed.wrote};
    }
    call->touched |= touched();
    memcpy(piece, lent_piece, piece_length);
    memcpy(room, lent_room, room_length);
    call->status = counts.status;
    call->taken += counts.taken;
    call->wrote += counts.wrote;
    return counts;
}

static void replay(struct call *call)
{
    size_t room_at = 0;
    for (size_t at = 0; at < call->steps_length; at++) {
        struct step *step = &steps[at];
        if (step->room > call->rooms_length - room_at) {
            fail("the steps of a replay leave its room");
        }
        if (call->taken > call->text_length) {
            return; /* More was taken than offered: the steps left unmade, status ff, say so. */
        }
        size_t left = call->text_length - call->taken;
        size_t piece = step->piece < left ? step->piece : left;
        struct kinkhost_counts counts = feed(call, text + call->taken, piece, rooms + room_at, step->room);
        step->status = counts.status;
        step->taken = counts.taken;
        step->wrote = counts.wrote;
        room_at += step->room;
    }
}

static void set_reply(struct call *call, struct kinkhost_reply reply)
{
    call->status = reply.status;
    call->kind = reply.kind;
    call->value = reply.value;
}

static void set_mapped(struct call *call, struct kinkhost_mapped mapped)
{
    call->status = mapped.status;
    call->kind = mapped.region;
    call->value = mapped.shadow;
}

static void open_session(struct call *call)
{
    struct kinkhost_opened opened =
        kinkhost_open(guards[SHADOW].lent, guards[SHADOW].bytes, (uint32_t *)(void *)guards[TABLE].lent,
                      call->table_length, call->numbers[0], (uint32_t)call->numbers[1]);
    *call->session = opened.session;
    call->status = opened.status;
}

static void direct(struct call *call)
{
    uint8_t *shadow = guards[SHADOW].lent;
    size_t shadow_length = guards[SHADOW].bytes;
    uint32_t *table = (uint32_t *)(void *)guards[TABLE].lent;
    size_t table_length = call->table_length;
    uint32_t first = (uint32_t)call->numbers[0];
    uint32_t second = (uint32_t)call->numbers[1];
    if (call->what == GRANT) {
        set_reply(call, kinkhost_grant(*call->session, shadow, shadow_length, table, table_length, first));
    } else if (call->what == RELEASE) {
        set_reply(call, kinkhost_release(*call->session, shadow, shadow_length, table, table_length, first));
    } else {
        set_reply(call, kinkhost_access(*call->session, shadow, shadow_length, table, table_length, first, second));
    }
}

static void make(struct call *call)
{
    switch (call->what) {
    case OPEN:
        open_session(call);
        break;
    case GRANT:
    case RELEASE:
    case ACCESS:
        direct(call);
        break;
    case FEED:
    case FEED_IN_PLACE:
        feed(call, text, call->text_length, rooms, call->rooms_length);
        break;
    case UNFINISHED:
        set_reply(call, kinkhost_unfinished(*call->session));
        break;
    case MAP32:
        set_mapped(call, kinkhost_map32(call->numbers[0]));
        break;
    case MAP64:
        set_mapped(call, kinkhost_map64(call->numbers[0]));
        break;
    case REPLAY:
    case REPLAY_IN_PLACE:
        replay(call);
        break;
    default:
        fail("an unknown request");
    }
    call->touched |= touched();
}

int main(void)
{
    guard_buffers();
    for (int what = getchar(); what != EOF; what = getchar()) {
        struct call call = {0};
        call.what = (uint8_t)what;
        get_call(&call);
        make(&call);
        put_outcome(&call);
    }
    return 0;
}
