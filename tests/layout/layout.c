/* Checks that the structs of kinkhost.h are those of the archive. The archive's functions are declared a second time,
 * under raw types, and what they write and read is looked at byte by byte where the header says that its fields are; so
 * an edit of either side alone is caught. For x86-64 (System V): a result of more than 16 bytes is written through a
 * hidden first pointer, a smaller one comes in rax and rdx, and an argument of more than 16 bytes is on the stack. */
#include <stdio.h>
#include <string.h>

#include "kinkhost.h"

/* A session as bytes: class MEMORY and aligned like the session itself, so it is passed in the same place. */
struct raw_session {
    _Alignas(struct kinkhost_session) unsigned char bytes[sizeof(struct kinkhost_session)];
};

struct raw_pair {
    uint64_t rax, rdx;
};

void raw_open(void *, uint8_t *, size_t, uint32_t *, size_t, size_t, uint32_t) __asm__("kinkhost_open");
void raw_feed(void *, struct raw_session, uint8_t *, size_t, uint32_t *, size_t, const uint8_t *, size_t, uint8_t *,
              size_t) __asm__("kinkhost_feed");
void raw_feed_in_place(void *, void *, uint8_t *, size_t, uint32_t *, size_t, const uint8_t *, size_t, uint8_t *,
                       size_t) __asm__("kinkhost_feed_in_place");
uint64_t raw_grant(struct raw_session, uint8_t *, size_t, uint32_t *, size_t, uint32_t) __asm__("kinkhost_grant");
uint64_t raw_release(struct raw_session, uint8_t *, size_t, uint32_t *, size_t, uint32_t) __asm__("kinkhost_release");
uint64_t raw_access(struct raw_session, const uint8_t *, size_t, const uint32_t *, size_t, uint32_t,
                    uint32_t) __asm__("kinkhost_access");
uint64_t raw_unfinished(struct raw_session) __asm__("kinkhost_unfinished");
struct raw_pair raw_map32(uint64_t) __asm__("kinkhost_map32");
struct raw_pair raw_map64(uint64_t) __asm__("kinkhost_map64");

/* Values that no two fields share. The most redzone is the only one that each change of a single byte breaks; under
 * the least, NEAR, the first block is at FIRST. A session lent in place is at LENT of its memory. */
enum { GRANULES = 24, ROWS = 5, NUMBERS = ROWS * KINKHOST_ROW_NUMBERS, REDZONE = KINKHOST_MOST_REDZONE };
enum { NEAR = KINKHOST_LEAST_REDZONE, FIRST = NEAR * KINKHOST_GRANULE, MEMORY = 256, LENT = 96, FIELDS = 6 };
#define QUARANTINE 0xa1b2c3d4u

struct field {
    const char *name;
    size_t offset, width;
};

#define FIELD(type, name) { #name, offsetof(struct type, name), sizeof(((struct type *)0)->name) }

static const struct field in_session[FIELDS] = {
    FIELD(kinkhost_session, granules),   FIELD(kinkhost_session, rows),       FIELD(kinkhost_session, redzone),
    FIELD(kinkhost_session, quarantine), FIELD(kinkhost_session, unfinished), FIELD(kinkhost_session, line),
};
static const struct field in_opened[] = { FIELD(kinkhost_opened, session), FIELD(kinkhost_opened, status) };
static const struct field in_fed[] = { FIELD(kinkhost_fed, session), FIELD(kinkhost_fed, status),
                                       FIELD(kinkhost_fed, taken), FIELD(kinkhost_fed, wrote) };
static const struct field in_counts[] = { FIELD(kinkhost_counts, status), FIELD(kinkhost_counts, taken),
                                          FIELD(kinkhost_counts, wrote) };
static const struct field in_reply[] = { FIELD(kinkhost_reply, status), FIELD(kinkhost_reply, kind),
                                         FIELD(kinkhost_reply, value) };
static const struct field in_mapped[] = { FIELD(kinkhost_mapped, status), FIELD(kinkhost_mapped, region),
                                          FIELD(kinkhost_mapped, shadow) };

static uint8_t shadow[GRANULES], room[MEMORY];
static uint32_t table[NUMBERS];
static unsigned facts, wrong;

static void fact(int holds, const char *what, const char *name, size_t at)
{
    facts++;
    if (!holds) {
        wrong++;
        printf("wrong: %s: %s, byte %zu\n", what, name, at);
    }
}

/* The whole width of a field at `base` holds these bytes, or this number, little-endian. */
static void holds_bytes(const char *what, struct field field, const unsigned char *base, const void *bytes)
{
    fact(memcmp(base + field.offset, bytes, field.width) == 0, what, field.name, field.offset);
}

static void holds(const char *what, struct field field, const unsigned char *base, uint64_t number)
{
    int same = field.width <= 8 && (field.width == 8 || number >> (8 * field.width) == 0);
    for (size_t i = 0; same && i < field.width; i++)
        same = base[field.offset + i] == (unsigned char)(number >> (8 * i));
    fact(same, what, field.name, field.offset);
}

static void holds_session(const char *what, const unsigned char *base, uint64_t redzone, const char *line)
{
    unsigned char places[sizeof(((struct kinkhost_session *)0)->line)] = { 0 };
    memcpy(places, line, strlen(line));
    holds(what, in_session[0], base, GRANULES);
    holds(what, in_session[1], base, ROWS);
    holds(what, in_session[2], base, redzone);
    holds(what, in_session[3], base, QUARANTINE);
    holds(what, in_session[4], base, strlen(line));
    holds_bytes(what, in_session[5], base, places);
}

/* A byte that keeps two patterns was not written. */
static int unwritten(unsigned char memory[2][MEMORY], size_t i)
{
    return memory[0][i] == 0x5a && memory[1][i] == 0xa5;
}

/* The archive writes zeros from the end of a field to `next`, `count` of them, and no field of the header reaches into
 * them. */
static void padded(const char *what, struct field field, size_t count, size_t next, unsigned char memory[2][MEMORY])
{
    size_t at = next - count;
    fact(field.offset + field.width == at, what, field.name, field.offset);
    while (at < next && memory[0][at] == 0 && memory[1][at] == 0)
        at++;
    fact(at == next, what, "zeros behind a field", at);
}

/* The last byte written is the last of the last field, or of `padding` zeros behind it, and the struct ends at the next
 * multiple of 8, the alignment of each struct here: neither side has a field behind the other's. */
static void ends_at(const char *what, struct field last, size_t padding, size_t size, unsigned char memory[2][MEMORY])
{
    size_t end = 0;
    for (size_t i = 0; i < MEMORY; i++)
        if (!unwritten(memory, i))
            end = i + 1;
    fact(end == last.offset + last.width + padding, what, last.name, end);
    padded(what, last, padding, end, memory);
    fact((end + 7) / 8 * 8 == size, what, "its size", end);
}

static void fill(unsigned char memory[2][MEMORY])
{
    memset(memory[0], 0x5a, MEMORY);
    memset(memory[1], 0xa5, MEMORY);
}

static void look_at_opened(void)
{
    unsigned char memory[2][MEMORY];
    static const struct kinkhost_session closed;
    fill(memory);
    for (int i = 0; i < 2; i++) {
        raw_open(memory[i], shadow, GRANULES, table, NUMBERS, REDZONE, QUARANTINE);
        holds_session("opened", memory[i] + in_opened[0].offset, REDZONE, "");
        holds("opened", in_opened[1], memory[i], KINKHOST_DONE);
    }
    ends_at("opened", in_opened[1], 7, sizeof(struct kinkhost_opened), memory);
    fill(memory);
    for (int i = 0; i < 2; i++) {
        raw_open(memory[i], shadow, GRANULES, table, NUMBERS, REDZONE + 1, QUARANTINE);
        for (int field = 0; field < FIELDS; field++)
            holds_bytes("refused opening", in_session[field], memory[i] + in_opened[0].offset, &closed);
        holds("refused opening", in_opened[1], memory[i], KINKHOST_BAD_REDZONE);
    }
}

/* An open session with nothing unfinished, laid out by the header; padding is filled, as it means nothing. */
static struct raw_session laid_out(uint64_t redzone)
{
    struct raw_session session;
    const uint64_t numbers[FIELDS - 1] = { GRANULES, ROWS, redzone, QUARANTINE, 0 };
    memset(session.bytes, 0xee, sizeof session.bytes);
    for (int field = 0; field < FIELDS - 1; field++)
        memcpy(session.bytes + in_session[field].offset, &numbers[field], in_session[field].width);
    memset(session.bytes + in_session[5].offset, 0, in_session[5].width);
    return session;
}

static void look_at_fed(void)
{
    static const char text[] = "030000000000000000\n0102";
    unsigned char memory[2][MEMORY];
    fill(memory);
    for (int i = 0; i < 2; i++) {
        raw_feed(memory[i], laid_out(NEAR), shadow, GRANULES, table, NUMBERS, (const uint8_t *)text, sizeof text - 1,
                 room, sizeof room);
        holds_session("fed", memory[i] + in_fed[0].offset, NEAR, "0102");
        holds("fed", in_fed[1], memory[i], KINKHOST_DONE);
        holds("fed", in_fed[2], memory[i], sizeof text - 1);
        holds("fed", in_fed[3], memory[i], KINKHOST_ANSWER_BYTES);
    }
    padded("fed", in_fed[1], 7, in_fed[2].offset, memory);
    ends_at("fed", in_fed[3], 0, sizeof(struct kinkhost_fed), memory);
}

/* Two copies of a session, to be lent amid two patterns. */
static void lay_amid_patterns(struct raw_session session, unsigned char lent[2][MEMORY])
{
    fill(lent);
    for (int i = 0; i < 2; i++)
        memcpy(lent[i] + LENT, session.bytes, sizeof session.bytes);
}

/* Feeds both in place: the counts are these, and nothing outside the sessions is written. */
static void feed_in_place(const char *what, unsigned char lent[2][MEMORY], const char *text, const uint64_t *numbers)
{
    unsigned char memory[2][MEMORY];
    size_t kept = 0;
    fill(memory);
    for (int i = 0; i < 2; i++) {
        raw_feed_in_place(memory[i], lent[i] + LENT, shadow, GRANULES, table, NUMBERS, (const uint8_t *)text,
                          strlen(text), room, sizeof room);
        for (int field = 0; field < 3; field++)
            holds(what, in_counts[field], memory[i], numbers[field]);
    }
    padded(what, in_counts[0], 7, in_counts[1].offset, memory);
    ends_at(what, in_counts[2], 0, sizeof(struct kinkhost_counts), memory);
    while (kept < MEMORY && (kept - LENT < sizeof(struct kinkhost_session) || unwritten(lent, kept)))
        kept++;
    fact(kept == MEMORY, what, "written outside the session", kept);
}

/* A feed that leaves an unfinished line, with a different value in each place, and then one that ends it. */
static void look_at_in_place(void)
{
    static const char *const text[2] = { "030000000000000000\nabcdefghijklmnopqr", "\n" };
    static const char *const line[2] = { "abcdefghijklmnopqr", "" };
    _Alignas(struct raw_session) unsigned char lent[2][MEMORY];
    lay_amid_patterns(laid_out(NEAR), lent);
    for (int feed = 0; feed < 2; feed++) {
        const uint64_t numbers[3] = { KINKHOST_DONE, strlen(text[feed]), KINKHOST_ANSWER_BYTES };
        feed_in_place("counts", lent, text[feed], numbers);
        for (int i = 0; i < 2; i++)
            holds_session("in place", lent[i] + LENT, NEAR, line[feed]);
    }
}

/* 24 hands the session back, or leaves it as it was lent: a different value in each byte of it must be found again in
 * each byte of a field. */
static void look_at_handed_back(void)
{
    static const uint64_t numbers[3] = { KINKHOST_BAD_SESSION, 0, 0 };
    struct raw_session session;
    unsigned char memory[2][MEMORY];
    _Alignas(struct raw_session) unsigned char lent[2][MEMORY];
    for (size_t i = 0; i < sizeof session.bytes; i++)
        session.bytes[i] = (unsigned char)(i + 1);
    fill(memory);
    for (int i = 0; i < 2; i++) {
        raw_feed(memory[i], session, shadow, GRANULES, table, NUMBERS, room, 0, room, 0);
        for (int field = 0; field < FIELDS; field++)
            holds_bytes("handed back", in_session[field], memory[i] + in_fed[0].offset,
                        session.bytes + in_session[field].offset);
        holds("handed back", in_fed[1], memory[i], KINKHOST_BAD_SESSION);
        holds("handed back", in_fed[2], memory[i], 0);
        holds("handed back", in_fed[3], memory[i], 0);
    }
    lay_amid_patterns(session, lent);
    feed_in_place("counts on 24", lent, "030000000000000000\n", numbers);
    for (int i = 0; i < 2; i++)
        for (int field = 0; field < FIELDS; field++)
            holds_bytes("in place on 24", in_session[field], lent[i] + LENT, session.bytes + in_session[field].offset);
}

/* The status that each call with a lent session gives, over buffers on which no call changes anything: a piece of no
 * bytes, the same in place, a grant for which the most redzone leaves no start, a release of 0, an access of 0 bytes.
 * The first two also give the session after the call. */
static unsigned status_of(int call, struct raw_session session, struct raw_session *after)
{
    unsigned char memory[MEMORY];
    switch (call) {
    case 0:
        raw_feed(memory, session, shadow, GRANULES, table, NUMBERS, room, 0, room, 0);
        memcpy(after->bytes, memory + in_fed[0].offset, sizeof after->bytes);
        return memory[in_fed[1].offset];
    case 1:
        *after = session;
        raw_feed_in_place(memory, after->bytes, shadow, GRANULES, table, NUMBERS, room, 0, room, 0);
        return memory[in_counts[0].offset];
    case 2:
        return raw_grant(session, shadow, GRANULES, table, NUMBERS, 1) >> (8 * in_reply[0].offset) & 0xff;
    case 3:
        return raw_release(session, shadow, GRANULES, table, NUMBERS, 0) >> (8 * in_reply[0].offset) & 0xff;
    default:
        return raw_access(session, shadow, GRANULES, table, NUMBERS, 0, 0) >> (8 * in_reply[0].offset) & 0xff;
    }
}

/* Each byte of the session changed alone, in each call: one of a field breaks the session, save that quarantine is any
 * number and comes back as it was lent; one between fields means nothing. */
static void look_at_argument(void)
{
    static const unsigned good[5] = { KINKHOST_DONE, KINKHOST_DONE, KINKHOST_NO_PLACE, KINKHOST_DONE, KINKHOST_DONE };
    for (int call = 0; call < 5; call++)
        for (size_t i = 0; i <= sizeof(struct kinkhost_session); i++) {
            struct raw_session session = laid_out(REDZONE), after;
            struct field owner = { "nothing changed, or between fields", i, 0 };
            if (i < sizeof session.bytes)
                session.bytes[i] ^= 0x80;
            for (int field = 0; field < FIELDS; field++)
                if (i - in_session[field].offset < in_session[field].width)
                    owner = in_session[field];
            int any = owner.width == 0 || owner.offset == in_session[3].offset;
            fact(status_of(call, session, &after) == (any ? good[call] : KINKHOST_BAD_SESSION), "lent", owner.name, i);
            if (call < 2)
                holds_bytes("lent", owner, after.bytes, session.bytes + owner.offset);
        }
}

/* Three fields that come in registers, whose bytes go to memory that is long enough for whatever the header says. */
static void holds_three(const char *what, const struct field *fields, struct raw_pair registers,
                        const uint64_t *numbers)
{
    unsigned char memory[MEMORY] = { 0 };
    memcpy(memory, &registers, sizeof registers);
    for (int field = 0; field < 3; field++)
        holds(what, fields[field], memory, numbers[field]);
}

static void holds_reply(const char *what, uint64_t rax, uint64_t status, uint64_t kind, uint64_t value)
{
    const uint64_t numbers[3] = { status, kind, value };
    holds_three(what, in_reply, (struct raw_pair){ rax, 0 }, numbers);
}

static void look_at_reply(void)
{
    struct raw_session session = laid_out(NEAR);
    holds_reply("access", raw_access(session, shadow, GRANULES, table, NUMBERS, 0xa1b2c3d4, 1), KINKHOST_NOT_GOOD,
                KINKHOST_OUTSIDE, 0xa1b2c3d4);
    holds_reply("grant", raw_grant(session, shadow, GRANULES, table, NUMBERS, 1), KINKHOST_DONE, 0, FIRST);
    holds_reply("release", raw_release(session, shadow, GRANULES, table, NUMBERS, FIRST + 1), KINKHOST_NOT_HELD, 0, 0);
    session.bytes[in_session[4].offset] = KINKHOST_TOO_LONG;
    holds_reply("unfinished", raw_unfinished(session), KINKHOST_DONE, 0, KINKHOST_TOO_LONG);
    fact(sizeof(struct kinkhost_reply) == sizeof(uint64_t), "reply", "its size: it comes in rax", 8);
}

/* The archive may carry padding along, so that quarantine comes back does not show its width. What a release does
 * shows it: under a limit of 0 the block is evicted at once, and any byte of the limit that is not 0 keeps it. */
static void look_at_quarantine(void)
{
    const struct field quarantine = in_session[3];
    unsigned char opened[MEMORY];
    for (size_t i = quarantine.offset; i < in_session[4].offset; i++) {
        struct raw_session session = laid_out(NEAR);
        memset(session.bytes + quarantine.offset, 0, quarantine.width);
        session.bytes[i] = 0x80;
        raw_open(opened, shadow, GRANULES, table, NUMBERS, NEAR, 0);
        holds_reply("quarantined", raw_grant(session, shadow, GRANULES, table, NUMBERS, 1), KINKHOST_DONE, 0, FIRST);
        holds_reply("quarantined", raw_release(session, shadow, GRANULES, table, NUMBERS, FIRST), KINKHOST_DONE, 0,
                    i - quarantine.offset < quarantine.width ? 0 : 1);
    }
}

static void holds_mapped(const char *what, struct raw_pair pair, uint64_t status, uint64_t region, uint64_t address)
{
    const uint64_t numbers[3] = { status, region, address };
    holds_three(what, in_mapped, pair, numbers);
}

static void look_at_mapped(void)
{
    holds_mapped("map32", raw_map32(0x87654321), KINKHOST_DONE, KINKHOST_HIGH_MEM, 0x30eca864);
    holds_mapped("map32", raw_map32(UINT64_C(0x100000000)), KINKHOST_BEYOND_MAP, KINKHOST_NOWHERE, 0);
    holds_mapped("map64", raw_map64(UINT64_C(0x7edcba987654)), KINKHOST_DONE, KINKHOST_HIGH_MEM,
                 UINT64_C(0xfdc17528eca));
    holds_mapped("map64", raw_map64(0x8fff7000), KINKHOST_IN_GAP, KINKHOST_SHADOW_GAP, 0);
    holds_mapped("map64", raw_map64(0x7fff8000), KINKHOST_DONE, KINKHOST_LOW_SHADOW, 0x8fff7000);
    fact(sizeof(struct kinkhost_mapped) == sizeof(struct raw_pair), "mapped", "its size: it comes in rax and rdx", 16);
}

/* A new field of the header could stand in what is padding today. -Wextra with -Werror refuses an initializer that
 * leaves a field out, so this does not compile then. */
static void knows_every_field(void)
{
    struct kinkhost_session session = { 0, 0, 0, 0, 0, { 0 } };
    struct kinkhost_opened opened = { session, 0 };
    struct kinkhost_fed fed = { session, 0, 0, 0 };
    struct kinkhost_counts counts = { 0, 0, 0 };
    struct kinkhost_reply reply = { 0, 0, 0 };
    struct kinkhost_mapped mapped = { 0, 0, 0 };
    (void)opened, (void)fed, (void)counts, (void)reply, (void)mapped;
}

static void list(const char *name, size_t size, const struct field *fields, size_t count)
{
    printf("%s: %zu bytes:", name, size);
    for (size_t i = 0; i < count; i++)
        printf("%s %s %zu", i ? "," : "", fields[i].name, fields[i].offset);
    printf("\n");
}

#define LIST(type, fields) list(#type, sizeof(struct type), fields, sizeof fields / sizeof *fields)

int main(void)
{
    /* In this order: each step calls only with what the steps before it found right, so that a wrong header ends in
     * facts that are wrong and not in a crash. */
    void (*const steps[])(void) = { knows_every_field, look_at_opened,      look_at_reply,
                                    look_at_mapped,    look_at_fed,         look_at_in_place,
                                    look_at_argument,  look_at_handed_back, look_at_quarantine };
    for (size_t i = 0; i < sizeof steps / sizeof *steps && wrong == 0; i++)
        steps[i]();
    if (wrong == 0) {
        LIST(kinkhost_session, in_session);
        LIST(kinkhost_opened, in_opened);
        LIST(kinkhost_fed, in_fed);
        LIST(kinkhost_counts, in_counts);
        LIST(kinkhost_reply, in_reply);
        LIST(kinkhost_mapped, in_mapped);
    }
    printf("layout: %u facts, %u wrong\n", facts, wrong);
    return wrong != 0;
}
