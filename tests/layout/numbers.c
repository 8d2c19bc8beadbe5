/* Checks that the numbers named in kinkhost.h are the archive's. Each is looked for in what calls take, answer and
 * write, without the name, and then compared with it; so a wrong number is said by its own name and by no other. That
 * the header's structs are the archive's, layout.c has seen before. */
#include <stdio.h>
#include <string.h>

#include "kinkhost.h"

/* A pool at none of the limits, in which the first block is at granule REDZONE, and whose table is whole rows of any
 * few numbers; and lengths beyond every limit. */
enum { GRANULES = 64, NUMBERS = 240, REDZONE = 5, QUARANTINE = 1000, SIZE = 13, BLOCKS = 3 };
enum { MOST_BYTES = 1 << 18, MOST_NUMBERS = 1 << 14, MOST_REDZONE = 1 << 12, KINDS = 256, TEXT = 64 };

static uint8_t shadow[MOST_BYTES], room[TEXT];
static uint32_t table[MOST_NUMBERS];
static struct kinkhost_session session;
static unsigned compared, wrong;

static void is(const char *name, unsigned long named, unsigned long seen)
{
    compared++;
    if (named != seen) {
        wrong++;
        printf("wrong: %s is %lu, and the archive's is %lu\n", name, named, seen);
    }
}

#define IS(name, seen) is(#name, name, seen)

static uint8_t open_with(size_t granules, size_t numbers, size_t redzone)
{
    struct kinkhost_opened opened = kinkhost_open(shadow, granules, table, numbers, redzone, QUARANTINE);
    session = opened.session;
    return opened.status;
}

static int opens(size_t granules, size_t numbers, size_t redzone)
{
    open_with(granules, numbers, redzone);
    return session.granules != 0; /* a closed session is all zeros */
}

static int opens_granules(size_t length)
{
    return opens(length, NUMBERS, REDZONE);
}

static int opens_numbers(size_t length)
{
    return opens(GRANULES, length, REDZONE);
}

static int opens_redzone(size_t length)
{
    return opens(GRANULES, NUMBERS, length);
}

static size_t first_from(size_t length, int (*opening)(size_t))
{
    while (length < MOST_NUMBERS && !opening(length))
        length++;
    return length;
}

/* A refused opening writes nothing, so this is cheap. */
static size_t last_up_to(size_t length, int (*opening)(size_t))
{
    while (length > 0 && !opening(length))
        length--;
    return length;
}

static void look_at_limits(void)
{
    size_t least = first_from(0, opens_numbers);
    size_t row = first_from(least + 1, opens_numbers) - least;
    IS(KINKHOST_ROW_NUMBERS, row);
    IS(KINKHOST_LEAST_ROWS, least / row);
    IS(KINKHOST_MOST_ROWS, last_up_to(MOST_NUMBERS, opens_numbers) / row);
    IS(KINKHOST_LEAST_GRANULES, first_from(0, opens_granules));
    IS(KINKHOST_MOST_GRANULES, last_up_to(MOST_BYTES, opens_granules));
    IS(KINKHOST_LEAST_REDZONE, first_from(0, opens_redzone));
    IS(KINKHOST_MOST_REDZONE, last_up_to(MOST_REDZONE, opens_redzone));
}

static struct kinkhost_reply grant(uint32_t size)
{
    return kinkhost_grant(session, shadow, GRANULES, table, NUMBERS, size);
}

static struct kinkhost_reply release(uint32_t address)
{
    return kinkhost_release(session, shadow, GRANULES, table, NUMBERS, address);
}

static struct kinkhost_reply access_to(uint32_t address)
{
    return kinkhost_access(session, shadow, GRANULES, table, NUMBERS, address, 1);
}

static uint8_t open_again(void)
{
    return open_with(GRANULES, NUMBERS, REDZONE);
}

static uint8_t status_without_a_row(void)
{
    struct kinkhost_reply last;
    open_again();
    memset(table, 0xff, sizeof table); /* no row is empty */
    last = grant(SIZE);
    open_again();
    return last.status;
}

static void look_at_statuses(void)
{
    struct kinkhost_reply block;
    IS(KINKHOST_BAD_SHADOW_LENGTH, open_with(0, NUMBERS, REDZONE));
    IS(KINKHOST_BAD_REDZONE, open_with(GRANULES, NUMBERS, 0));
    IS(KINKHOST_BAD_TABLE_LENGTH, open_with(GRANULES, 0, REDZONE));
    IS(KINKHOST_BAD_SESSION, grant(SIZE).status); /* the refused opening closed it */
    IS(KINKHOST_NO_ROW, status_without_a_row());
    IS(KINKHOST_DONE, open_again());
    IS(KINKHOST_NO_PLACE, grant(UINT32_MAX).status);
    IS(KINKHOST_NOT_GOOD, access_to(0).status);
    block = grant(SIZE);
    IS(KINKHOST_NOT_HELD, release(block.value + 1).status);
    release(block.value);
    IS(KINKHOST_RELEASED, release(block.value).status);
    IS(KINKHOST_BEYOND_MAP, kinkhost_map32(UINT64_C(0x100000000)).status);
    IS(KINKHOST_IN_GAP, kinkhost_map32(0x24000000).status);
}

/* The column of a row in which this number stands; NUMBERS where it is in none or in several. */
static size_t column_of(const uint32_t *row, size_t columns, uint32_t number)
{
    size_t found = NUMBERS;
    for (size_t at = 0; at < columns; at++)
        if (row[at] == number)
            found = found == NUMBERS ? at : NUMBERS + 1;
    return found < NUMBERS ? found : NUMBERS;
}

/* The first row of three blocks, live, and then released as the last of them: its start is the redzone, its size is
 * SIZE, its turn is then BLOCKS, and what else changes is its state. */
static void look_at_rows(void)
{
    uint32_t live[NUMBERS + 1] = { 0 }, changed[NUMBERS + 1] = { 0 }, blocks[BLOCKS];
    open_again();
    const size_t columns = NUMBERS / session.rows;
    const uint32_t empty = table[0];
    IS(KINKHOST_REDZONE_BYTE, shadow[0]);
    IS(KINKHOST_OUTSIDE, access_to(UINT32_MAX).kind);
    for (int block = 0; block < BLOCKS; block++)
        blocks[block] = grant(SIZE).value;
    IS(KINKHOST_GRANULE, blocks[0] / REDZONE);
    memcpy(live, table, columns * sizeof *live);
    for (int block = BLOCKS - 1; block >= 0; block--)
        release(blocks[block]);
    IS(KINKHOST_RELEASED_BYTE, shadow[REDZONE]);
    const size_t turn = column_of(table, columns, BLOCKS);
    for (size_t at = 0; at < columns; at++)
        changed[at] = at != turn && table[at] != live[at];
    const size_t state = column_of(changed, columns, 1);
    IS(KINKHOST_START_COLUMN, column_of(live, columns, REDZONE));
    IS(KINKHOST_SIZE_COLUMN, column_of(live, columns, SIZE));
    IS(KINKHOST_STATE_COLUMN, state);
    IS(KINKHOST_TURN_COLUMN, turn);
    IS(KINKHOST_EMPTY, empty);
    IS(KINKHOST_LIVE, live[state]);
    IS(KINKHOST_QUARANTINED, table[state]);
}

static struct kinkhost_counts feed(const char *text, size_t length, size_t room_length)
{
    return kinkhost_feed_in_place(&session, shadow, GRANULES, table, NUMBERS, (const uint8_t *)text, length, room,
                                  room_length);
}

static unsigned status_of(const char *line, size_t length)
{
    feed(line, length, sizeof room);
    return (room[0] - '0') * 10u + (room[1] - '0');
}

static unsigned status_of_zeros(size_t length)
{
    char line[TEXT];
    memset(line, '0', sizeof line);
    line[length] = '\n';
    return status_of(line, length + 1);
}

static void look_at_text(void)
{
    size_t least = 0, digits = TEXT;
    open_again();
    while (feed("\n", 1, least).taken == 0)
        least++;
    IS(KINKHOST_ANSWER_BYTES, least);
    IS(KINKHOST_ANSWER_BYTES, feed("\n", 1, sizeof room).wrote);
    IS(KINKHOST_BAD_LINE, status_of_zeros(0));
    for (size_t length = 0; length < TEXT - 1; length++)
        if (status_of_zeros(length) != status_of_zeros(0))
            digits = digits == TEXT ? length : TEXT + 1;
    IS(KINKHOST_FRAME_DIGITS, digits);
    IS(KINKHOST_FRAME_DIGITS, sizeof session.line);
    for (size_t length = 0; length < TEXT; length++)
        feed("0", 1, 0);
    IS(KINKHOST_TOO_LONG, kinkhost_unfinished(session).value);
}

/* The status of a frame, over a pool with one live block, at granule REDZONE. */
static unsigned status_of_frame(unsigned kind, uint32_t a, uint32_t b)
{
    char line[TEXT];
    int length = snprintf(line, sizeof line, "%02x%08lx%08lx\n", kind, (unsigned long)a, (unsigned long)b);
    open_again();
    grant(SIZE);
    return status_of(line, (size_t)length);
}

/* The first granule whose shadow byte that frame changes, or GRANULES. */
static size_t changed_by(unsigned kind, uint32_t a)
{
    uint8_t before[GRANULES];
    size_t at = 0;
    open_again();
    grant(SIZE);
    memcpy(before, shadow, sizeof before);
    status_of_frame(kind, a, 0);
    while (at < GRANULES && shadow[at] == before[at])
        at++;
    return at;
}

/* Each kind tried. Reads and writes are judged alike, so that the lower of the two is a read is in the definitions
 * alone. */
static void look_at_kinds(void)
{
    unsigned granting = 0, releasing = 0, first = KINDS, last = 0;
    open_again();
    const unsigned not_good = access_to(0).status;
    const uint32_t block = grant(SIZE).value;
    for (unsigned kind = 0; kind < KINDS; kind++) {
        if (changed_by(kind, block) == REDZONE)
            releasing = releasing == 0 ? kind : KINDS;
        else if (changed_by(kind, SIZE) < GRANULES)
            granting = granting == 0 ? kind : KINDS;
        else if (status_of_frame(kind, 0, 1) == not_good) {
            first = first == KINDS ? kind : first;
            last = kind;
        }
    }
    IS(KINKHOST_KIND_GRANT, granting);
    IS(KINKHOST_KIND_RELEASE, releasing);
    IS(KINKHOST_KIND_READ, first);
    IS(KINKHOST_KIND_WRITE, last);
    IS(KINKHOST_BAD_KIND, status_of_frame(KINDS - 1, 0, 0));
    IS(KINKHOST_NOT_ZERO, status_of_frame(granting, SIZE, 1));
}

/* By the first address of each region in the paper's table of 32 bits. */
static void look_at_regions(void)
{
    IS(KINKHOST_LOW_MEM, kinkhost_map32(0).region);
    IS(KINKHOST_LOW_SHADOW, kinkhost_map32(0x20000000).region);
    IS(KINKHOST_SHADOW_GAP, kinkhost_map32(0x24000000).region);
    IS(KINKHOST_HIGH_SHADOW, kinkhost_map32(0x28000000).region);
    IS(KINKHOST_HIGH_MEM, kinkhost_map32(0x40000000).region);
    IS(KINKHOST_NOWHERE, kinkhost_map32(UINT64_C(0x100000000)).region);
}

int main(void)
{
    look_at_limits();
    look_at_statuses();
    look_at_rows();
    look_at_text();
    look_at_kinds();
    look_at_regions();
    printf("numbers: %u compared, %u wrong\n", compared, wrong);
    return wrong != 0;
}
