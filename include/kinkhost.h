/* Kinkhost: a watcher for a fixed memory pool, judging grants, releases, reads and writes by the published rules of
 * AddressSanitizer. Link libkinkhost.a (`rt lib` in crates/kinkhost writes it to crates/kinkhost/out/), an x86-64 archive
 * that keeps no state, allocates nothing and calls nothing but memset: all that it works on is lent by the caller, call
 * by call.
 *
 * The pool is an arena of 8 x S bytes, which is never looked at: addresses are offsets from its first byte, and a
 * granule is 8 bytes at a multiple of 8. The caller owns
 *
 *   - a shadow of S bytes, one a granule: S is 8 to 65,536;
 *   - a table of rows, four numbers each: start granule, size in bytes, state (0 empty, 1 live, 2 quarantined), turn.
 *     1 to 1,024 rows, so 4 to 4,096 numbers;
 *   - a session, passed by value and handed back by value; kinkhost_feed_in_place is lent it, and changes it in place.
 *
 * Every length here counts elements: bytes of a shadow, a piece or a room, numbers of a table.
 *
 * What a caller owes, since no call can see it: each pointer has that many elements behind it (where the length is 0,
 * a pointer to anything of that type will do, but not a null one), a pointer to a session has a session behind it, and
 * what one call is lent does not overlap. Nothing else. Whatever the numbers, the session and the bytes in the buffers
 * are, scribbled or forged ones too, each call returns and answers as below, and touches nothing but what it was lent.
 * That is proved for the Rattle functions that these are compiled from; the compiler, and the C on your side of the
 * call, are not part of the proof.
 *
 * The paper's numbers have names below. In a comment a status is its two decimal digits. */
#ifndef KINKHOST_H
#define KINKHOST_H

#include <stddef.h>
#include <stdint.h>

/* Names for the paper's numbers: macros and not enumerators, so that #if can ask them, and so that C++ multiplies one
 * with an enumerator of the caller's, ROWS * KINKHOST_ROW_NUMBERS, without a warning. */

/* The statuses, checked in this order (07 and 08 for releases only, 09 for accesses only). The kind is 0 with all but
 * 09, the value with all but 00 and 09. None of 01 to 24 changes a byte of the shadow or a number of the table. */
#define KINKHOST_DONE 0               /* 00; the value is the address, the count evicted, the length, or 0 */
#define KINKHOST_BAD_LINE 1           /* 01, the line is not 18 hex digits */
#define KINKHOST_BAD_KIND 2           /* 02, the frame's kind is not 01 to 04 */
#define KINKHOST_NOT_ZERO 3           /* 03, B is not zero in a grant or a release */
#define KINKHOST_NO_ROW 5             /* 05, grant: no row is empty */
#define KINKHOST_NO_PLACE 6           /* 06, grant: no start exists */
#define KINKHOST_NOT_HELD 7           /* 07, release: address not 0, no live or quarantined row starts there */
#define KINKHOST_RELEASED 8           /* 08, release: address not 0, no live row but a quarantined one starts there */
#define KINKHOST_NOT_GOOD 9           /* 09, access; the value is the first bad byte, the kind its shadow byte, or ff */
#define KINKHOST_BAD_SHADOW_LENGTH 21 /* 21, opening: the shadow's length is not 8 to 65,536 */
#define KINKHOST_BAD_REDZONE 22       /* 22, opening: the redzone is not 2 to 256 */
#define KINKHOST_BAD_TABLE_LENGTH 23  /* 23, opening: the table's length is not 4 to 4,096, or not a multiple of 4 */
#define KINKHOST_BAD_SESSION 24       /* 24, any later call: the session is closed, the lent lengths are not the
                                         session's, or one of its fields is outside its limits */
#define KINKHOST_BEYOND_MAP 31        /* 31, map: the address is beyond the map's last */
#define KINKHOST_IN_GAP 32            /* 32, map: the address is in the gap */

/* A granule in bytes, and the limits of S, of the rows and of R in granules. */
#define KINKHOST_GRANULE 8
#define KINKHOST_LEAST_GRANULES 8
#define KINKHOST_MOST_GRANULES 65536
#define KINKHOST_LEAST_ROWS 1
#define KINKHOST_MOST_ROWS 1024
#define KINKHOST_LEAST_REDZONE 2
#define KINKHOST_MOST_REDZONE 256

/* How many numbers a row is: a table of n rows has n * KINKHOST_ROW_NUMBERS. Then the columns, and the states. */
#define KINKHOST_ROW_NUMBERS 4
#define KINKHOST_START_COLUMN 0 /* in granules */
#define KINKHOST_SIZE_COLUMN 1  /* in bytes */
#define KINKHOST_STATE_COLUMN 2
#define KINKHOST_TURN_COLUMN 3
#define KINKHOST_EMPTY 0
#define KINKHOST_LIVE 1
#define KINKHOST_QUARANTINED 2

/* Shadow bytes: redzone or room not held; released and quarantined. Then the kind of a byte outside the arena. */
#define KINKHOST_REDZONE_BYTE 0xfa
#define KINKHOST_RELEASED_BYTE 0xfd
#define KINKHOST_OUTSIDE 0xff

/* Text: the digits of a frame, the length that stands for every longer unfinished line, and the bytes of an answer in
 * the report, its line feed among them. Then the frame kinds. */
#define KINKHOST_FRAME_DIGITS 18
#define KINKHOST_TOO_LONG 19
#define KINKHOST_ANSWER_BYTES 13
#define KINKHOST_KIND_GRANT 1
#define KINKHOST_KIND_RELEASE 2
#define KINKHOST_KIND_READ 3
#define KINKHOST_KIND_WRITE 4

#ifdef __cplusplus
extern "C" {
#endif

/* A session. A closed one is all zeros. It may be copied, stored and compared field by field; a caller has no need to
 * change it. 24 answers one that is closed, whose lengths are not those of the lent buffers, whose redzone or
 * unfinished length is outside its limits, or that has a place of `line` beyond `unfinished` that is not zero. */
struct kinkhost_session {
    size_t granules;     /* S */
    size_t rows;         /* of the table */
    size_t redzone;      /* R in granules, 2 to 256 */
    uint32_t quarantine; /* Q in bytes, any number */
    size_t unfinished;   /* the length of the unfinished line, where 19 stands for 19 or more */
    uint8_t line[18];    /* its first bytes, then zeros */
};

/* An answer in the table's numbers. */
struct kinkhost_reply {
    uint8_t status;
    uint8_t kind;
    uint32_t value;
};

/* What an opening hands back: 00 and the session, or 21, 22 or 23 and a closed one. */
struct kinkhost_opened {
    struct kinkhost_session session;
    uint8_t status;
};

/* What a feed hands back: 00 or 24, the session to go on with, and how many bytes it took and wrote. */
struct kinkhost_fed {
    struct kinkhost_session session;
    uint8_t status;
    size_t taken;
    size_t wrote;
};

/* What a feed of a lent session hands back: a kinkhost_fed without the session, which lies where it was lent. */
struct kinkhost_counts {
    uint8_t status;
    size_t taken;
    size_t wrote;
};

/* The regions of the two published address maps, in `region` below. */
enum {
    KINKHOST_NOWHERE = 0,
    KINKHOST_LOW_MEM = 1,
    KINKHOST_LOW_SHADOW = 2,
    KINKHOST_SHADOW_GAP = 3,
    KINKHOST_HIGH_SHADOW = 4,
    KINKHOST_HIGH_MEM = 5
};

/* What a map hands back: 00, 31 or 32, the region, and the shadow address, 0 where the status is not 00. */
struct kinkhost_mapped {
    uint8_t status;
    uint8_t region;
    uint64_t shadow;
};

/* Opens a session: 21, 22, 23, in that order, write nothing and hand back the closed session. Otherwise the shadow is
 * now fa throughout, the table zeros, and the session has these lengths, this redzone in granules and this quarantine
 * limit in bytes, with no unfinished line. */
struct kinkhost_opened kinkhost_open(uint8_t *shadow, size_t shadow_length, uint32_t *table, size_t table_length,
                                     size_t redzone, uint32_t quarantine);

/* Grants `size` bytes, 0 counting as 1: 24, 05, 06, or 00 with the block's address. u granules are the size / 8,
 * rounded up. The start is the lowest granule p with p at least R, p + u + R at most S, and every shadow byte from
 * p - R to p + u + R - 1 equal to fa. Whole granules become 00 and a remainder goes into the last one; the lowest empty
 * row becomes (p, size, 1, 0); the value is 8p. As the frame 01 answers; the unfinished line is left alone. */
struct kinkhost_reply kinkhost_grant(struct kinkhost_session session, uint8_t *shadow, size_t shadow_length,
                                     uint32_t *table, size_t table_length, uint32_t size);

/* Releases the block at `address`: 24, 07, 08, or 00 with the number of blocks evicted. Address 0 is done and changes
 * nothing. The lowest live row that starts there becomes quarantined, its granules fd, its turn the number of
 * quarantined rows; then, while their sizes sum to more than Q, the one with the lowest turn is evicted: granules fa,
 * row emptied, every other turn above 0 lessened by one. As the frame 02 answers; the unfinished line is left alone. */
struct kinkhost_reply kinkhost_release(struct kinkhost_session session, uint8_t *shadow, size_t shadow_length,
                                       uint32_t *table, size_t table_length, uint32_t address);

/* Judges a read or a write of `length` bytes at `address`, which are judged alike: 24, 00, or 09 with the first byte
 * touched that is outside the arena or not among its granule's addressable bytes. The touched bytes are whole numbers
 * that do not wrap at 32 bits. A length of 0 touches nothing and is good at any address. As the frames 03 and 04
 * answer; the unfinished line is left alone, and nothing is written. */
struct kinkhost_reply kinkhost_access(struct kinkhost_session session, const uint8_t *shadow, size_t shadow_length,
                                      const uint32_t *table, size_t table_length, uint32_t address, uint32_t length);

/* Feeds a piece of a trace. A line is 18 hex digits of either case (kind 2, A 8, B 8) and a line feed; each line feed
 * gives one answer of 13 bytes (status 2, kind 2, value 8, in lower case, and a line feed). Bytes are taken in order
 * until the piece ends, or the next byte is a line feed and fewer than 13 bytes of room are left. Room beyond the bytes
 * written is unchanged. 24 takes and writes nothing and hands the session back as it came. However a trace is cut into
 * pieces, each call offered what was not taken, and whatever room is lent: the joined report and the last session,
 * shadow and table are those of the whole trace fed at once. An unfinished line is never acted on. */
struct kinkhost_fed kinkhost_feed(struct kinkhost_session session, uint8_t *shadow, size_t shadow_length,
                                  uint32_t *table, size_t table_length, const uint8_t *piece, size_t piece_length,
                                  uint8_t *room, size_t room_length);

/* The same for a caller that keeps one session: the session is lent and changed in place. Its fields are then those of
 * the session that kinkhost_feed hands back, and the counts, the shadow, the table and the room are kinkhost_feed's,
 * for every input; on 24 the session stays as it was. */
struct kinkhost_counts kinkhost_feed_in_place(struct kinkhost_session *session, uint8_t *shadow, size_t shadow_length,
                                              uint32_t *table, size_t table_length, const uint8_t *piece,
                                              size_t piece_length, uint8_t *room, size_t room_length);

/* The length of the unfinished line, 0 to 19, where 19 stands for 19 or more: 00 with the length, or 24 where a field
 * of the session is outside its limits. */
struct kinkhost_reply kinkhost_unfinished(struct kinkhost_session session);

/* The published 32-bit and 64-bit address maps, for any address: the region, and address / 8 plus 20000000 or 7fff8000
 * hex. 31 gives no region and 0, 32 gives the gap and 0. */
struct kinkhost_mapped kinkhost_map32(uint64_t address);
struct kinkhost_mapped kinkhost_map64(uint64_t address);

#ifdef __cplusplus
}
#endif

#endif
