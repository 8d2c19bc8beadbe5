/* Replays a trace beside its report against the compiler's own AddressSanitizer runtime: beside GRANULES TRACE REPORT.
 *
 * The arena is real memory here, poisoned throughout. A grant answered 00 unpoisons its block, a release answered 00
 * poisons it, and for each access the runtime says whether it is good and which byte is the first bad one; the answer
 * must be that. What is live is read off the lines and answers alone. Compile with -fsanitize=address.
 *
 * Status 0: no difference, and good and bad accesses were both compared. 1: a difference, said on standard error with
 * its line. 2: wrong usage, or a file that cannot be read. */
#define _POSIX_C_SOURCE 200809L
#include <inttypes.h>
#include <stdarg.h>
#include <stdio.h>
#include <stdlib.h>
#include <string.h>

#include <sanitizer/asan_interface.h>

#include "kinkhost.h" /* for the paper's numbers; nothing of the library is called */

/* The least redzone in bytes, and an answer without its line feed. */
enum { GRANULE = KINKHOST_GRANULE, REDZONE = KINKHOST_LEAST_REDZONE * GRANULE, ANSWER = KINKHOST_ANSWER_BYTES - 1 };

struct block {
    uint32_t address, size;
};

/* One line of the trace and its answer, as text and as numbers. */
struct step {
    unsigned long number;
    char *line;
    char answer[ANSWER + 1];
    int frame; /* the line is 18 hex digits, so that the next three are its numbers */
    uint32_t kind, a, b;
    uint32_t status, answer_kind, value;
};

/* The arena of 8 x S bytes and, behind it, a granule that is never unpoisoned: it stands for every byte outside. */
static _Alignas(GRANULE) unsigned char memory[GRANULE * (KINKHOST_MOST_GRANULES + 1)];
static uint64_t arena; /* its length, 8 x S */

static struct block live[KINKHOST_MOST_ROWS];
static size_t lives;
static unsigned char released[KINKHOST_MOST_GRANULES]; /* granules of blocks released and not granted since */
static unsigned long good, bad, grants, releases, refusals;

static void differ(const struct step *step, const char *format, ...)
{
    va_list values;
    fprintf(stderr, "beside: line %lu, %s, answered %s: ", step->number, step->line, step->answer);
    va_start(values, format);
    vfprintf(stderr, format, values);
    va_end(values);
    fprintf(stderr, "\n");
    exit(1);
}

static void unusable(const char *what, const char *name)
{
    fprintf(stderr, "beside: %s: %s\n", name, what);
    exit(2);
}

/* The number that `count` hex digits write; `capitals` also allows A to F. */
static int digits(const char *text, size_t count, int capitals, uint32_t *number)
{
    *number = 0;
    for (size_t i = 0; i < count; i++) {
        const char *known = capitals ? "0123456789abcdefABCDEF" : "0123456789abcdef";
        const char *digit = text[i] == '\0' ? NULL : strchr(known, text[i]);
        if (digit == NULL)
            return 0;
        uint32_t value = (uint32_t)(digit - known);
        *number = *number * 16 + (value > 15 ? value - 6 : value);
    }
    return 1;
}

static struct block *live_at(uint32_t address)
{
    for (size_t i = 0; i < lives; i++)
        if (live[i].address == address)
            return &live[i];
    return NULL;
}

static uint32_t granules_of(uint32_t size)
{
    return size / GRANULE + (size % GRANULE != 0);
}

/* "Every shadow byte from p - R to p + u + R - 1 equal to fa": the block and the least redzone on each side
 * of its granules lie in the arena, and the runtime holds each of them poisoned. So nothing held is granted again. */
static void grant(const struct step *step)
{
    uint32_t size = step->a == 0 ? 1 : step->a;
    uint64_t from = (uint64_t)step->value - REDZONE;
    uint64_t to = step->value + GRANULE * (uint64_t)granules_of(size) + REDZONE;
    if (step->value % GRANULE != 0 || step->value < REDZONE || to > arena)
        differ(step, "no block can be there");
    for (uint64_t i = from; i < to; i++)
        if (!__asan_address_is_poisoned(memory + i))
            differ(step, "the runtime says that byte %08" PRIx64 " is addressable already", i);
    if (lives == KINKHOST_MOST_ROWS)
        differ(step, "there are %d live blocks already", KINKHOST_MOST_ROWS);
    live[lives++] = (struct block){ step->value, size };
    __asan_unpoison_memory_region(memory + step->value, size);
    memset(released + step->value / GRANULE, 0, granules_of(size));
    grants++;
}

static void release(const struct step *step)
{
    struct block *block = live_at(step->a);
    if (step->a == 0 && step->value != 0)
        differ(step, "a release of address 0 evicts nothing");
    if (step->a == 0)
        return;
    if (block == NULL)
        differ(step, "no live block starts there");
    __asan_poison_memory_region(memory + block->address, block->size);
    memset(released + block->address / GRANULE, 1, granules_of(block->size));
    *block = live[--lives];
    releases++;
}

/* The first bad byte of `length` bytes at `address`, or -1. All bytes of the range that are inside the arena are asked
 * about, and one that stands for those outside, where there are any: a byte outside can only be the first bad one if it
 * is the range's own first byte, or the arena's end with all bytes before it good. */
static int64_t first_bad(uint32_t address, uint32_t length)
{
    uint64_t from = address < arena ? address : arena;
    uint64_t end = (uint64_t)address + length;
    uint64_t to = length == 0 ? from : end <= arena ? end : arena + 1;
    unsigned char *byte = __asan_region_is_poisoned(memory + from, to - from);
    if (byte == NULL)
        return -1;
    return byte - memory < (int64_t)arena ? byte - memory : address < arena ? (int64_t)arena : (int64_t)address;
}

/* User poison has one value in the runtime, f7, where the paper has fa and fd. But ff is for bytes outside alone, the
 * runtime knows how many leading bytes of a granule are good, and fd needs a release. */
static void compare_kind(const struct step *step)
{
    uint32_t leading = 0;
    if (step->value >= arena) {
        if (step->answer_kind != KINKHOST_OUTSIDE)
            differ(step, "the byte is outside the arena");
        return;
    }
    while (leading < GRANULE && !__asan_address_is_poisoned(memory + step->value / GRANULE * GRANULE + leading))
        leading++;
    if (leading > 0 && step->answer_kind != leading)
        differ(step, "the runtime says that %u leading bytes of the granule are good", (unsigned)leading);
    int was_released = released[step->value / GRANULE];
    if (leading == 0 && step->answer_kind != KINKHOST_REDZONE_BYTE &&
        !(step->answer_kind == KINKHOST_RELEASED_BYTE && was_released))
        differ(step, "the granule is poisoned, and was %sreleased", was_released ? "" : "not ");
}

static void access_to(const struct step *step)
{
    int64_t byte = first_bad(step->a, step->b);
    if (byte < 0 && strcmp(step->answer, "000000000000") != 0)
        differ(step, "the runtime says that each byte is good");
    if (byte >= 0 && (step->status != KINKHOST_NOT_GOOD || step->value != byte))
        differ(step, "the runtime says that the first bad byte is %08" PRIx64, (uint64_t)byte);
    if (byte >= 0)
        compare_kind(step);
    *(byte < 0 ? &good : &bad) += 1;
}

/* 01, 02 or 03, which the line alone decides, or 00. */
static uint32_t line_refusal(const struct step *step)
{
    if (!step->frame)
        return KINKHOST_BAD_LINE;
    switch (step->kind) {
    case KINKHOST_KIND_GRANT:
    case KINKHOST_KIND_RELEASE:
        return step->b != 0 ? KINKHOST_NOT_ZERO : KINKHOST_DONE;
    case KINKHOST_KIND_READ:
    case KINKHOST_KIND_WRITE:
        return KINKHOST_DONE;
    default:
        return KINKHOST_BAD_KIND;
    }
}

/* 05 and 06 are a grant's, 07 and 08 a release's that has no live block. */
static int may_be_refused(const struct step *step)
{
    if (step->kind == KINKHOST_KIND_GRANT)
        return step->status == KINKHOST_NO_ROW || step->status == KINKHOST_NO_PLACE;
    return (step->status == KINKHOST_NOT_HELD || step->status == KINKHOST_RELEASED) && step->a != 0 &&
           live_at(step->a) == NULL;
}

/* A line that is refused changes nothing. */
static void refusal(const struct step *step)
{
    uint32_t expected = line_refusal(step);
    if (expected != KINKHOST_DONE && step->status != expected)
        differ(step, "the line alone gives %02u", (unsigned)expected);
    if (expected == KINKHOST_DONE && !may_be_refused(step))
        differ(step, "there is no such refusal here");
    if (step->answer_kind != 0 || step->value != 0)
        differ(step, "a refusal has kind 00 and value 0");
    refusals++;
}

static void compare(const struct step *step)
{
    if (step->frame && (step->kind == KINKHOST_KIND_READ || step->kind == KINKHOST_KIND_WRITE))
        access_to(step);
    else if (line_refusal(step) != KINKHOST_DONE || step->status != KINKHOST_DONE)
        refusal(step);
    else if (step->answer_kind != 0)
        differ(step, "what is done has kind 00");
    else if (step->kind == KINKHOST_KIND_GRANT)
        grant(step);
    else
        release(step);
}

/* One line of the trace without its line feed: its length, or -1 at the end. An unfinished line has no answer. */
static ssize_t next_line(FILE *file, char **line, size_t *room)
{
    ssize_t length = getline(line, room, file);
    if (length <= 0 || (*line)[length - 1] != '\n')
        return -1;
    (*line)[length - 1] = '\0';
    return length - 1;
}

static unsigned long replay(FILE *trace, FILE *report)
{
    struct step step = { .number = 0 };
    char *answer = NULL;
    size_t line_room = 0, answer_room = 0;
    ssize_t length;
    while ((length = next_line(trace, &step.line, &line_room)) >= 0) {
        ssize_t answered = next_line(report, &answer, &answer_room);
        step.number++;
        snprintf(step.answer, sizeof step.answer, "%s", answered < 0 ? "nothing" : answer);
        if (answered != ANSWER || !digits(answer, 2, 0, &step.status) || !digits(answer + 2, 2, 0, &step.answer_kind) ||
            !digits(answer + 4, 8, 0, &step.value))
            differ(&step, "that is not an answer");
        step.frame = length == KINKHOST_FRAME_DIGITS && digits(step.line, 2, 1, &step.kind) &&
                     digits(step.line + 2, 8, 1, &step.a) && digits(step.line + 10, 8, 1, &step.b);
        compare(&step);
    }
    if (next_line(report, &answer, &answer_room) >= 0)
        unusable("more answers than lines", "the report");
    free(step.line);
    free(answer);
    return step.number;
}

/* "Shadow address = address / 8 rounded down, plus .. 7fff8000 hex (64-bit)": the runtime's own map on x86-64. */
static void compare_map(void)
{
    size_t scale, offset;
    __asan_get_shadow_mapping(&scale, &offset);
    printf("the runtime's map: scale %zu, offset %zx\n", scale, offset);
    fflush(stdout); /* before what is said of a difference */
#ifdef __x86_64__
    int same = scale == 3 && offset == 0x7fff8000;
#else
    int same = scale == 3; /* the paper has no map of this machine, but a granule is 8 bytes everywhere */
#endif
    if (!same) {
        fprintf(stderr, "beside: that is not the published map\n");
        exit(1);
    }
}

static FILE *opened(const char *name)
{
    FILE *file = fopen(name, "r");
    if (file == NULL)
        unusable("cannot be read", name);
    return file;
}

int main(int count, char **arguments)
{
    unsigned long granules = count == 4 ? strtoul(arguments[1], NULL, 10) : 0;
    if (granules < KINKHOST_LEAST_GRANULES || granules > KINKHOST_MOST_GRANULES)
        unusable("usage: beside GRANULES TRACE REPORT, of a pool that opens", count > 1 ? arguments[1] : "");
    arena = GRANULE * granules;
    __asan_poison_memory_region(memory, sizeof memory);
    compare_map();
    FILE *trace = opened(arguments[2]), *report = opened(arguments[3]);
    unsigned long lines = replay(trace, report);
    if (ferror(trace) || ferror(report))
        unusable("cannot be read to its end", arguments[ferror(trace) ? 2 : 3]);
    fclose(trace);
    fclose(report);
    printf("%lu lines: %lu good and %lu bad accesses as the runtime says, %lu grants, %lu releases, %lu refusals\n",
           lines, good, bad, grants, releases, refusals);
    if (good == 0 || bad == 0) {
        fprintf(stderr, "beside: no %s access was compared\n", good == 0 ? "good" : "bad");
        return 1;
    }
    return 0;
}
