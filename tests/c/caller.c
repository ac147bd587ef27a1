/* Calls every function of the library and compares with stored answers. Rows named "case" have the answers of 01's
 * cases 1 to 7. All others were worked out by hand; beside each network that is not in 01 stands how. Every call is
 * made twice: with guard bytes around each lent slice, and with each slice at the edge. */
#define _DEFAULT_SOURCE
#include "lent.h"
#include "reedlocket.h"

#include <inttypes.h>
#include <signal.h>

#define X REEDLOCKET_NO_LINK
#define P(n) (REEDLOCKET_FIRST_PROCESSOR + (n))
#define ROWS(rows) (sizeof(rows) / sizeof(rows)[0])

/* The packings, written out. */
#define REFUSED(number, place) ((uint64_t)(number) | (uint64_t)(place) << 8)
#define ISSUED(distance, count, tries) ((uint64_t)(distance) << 8 | (uint64_t)(count) << 16 | (uint64_t)(tries) << 40)
#define AWAY(distance) ISSUED(distance, 0, 0)
#define SAYS(says) ((uint64_t)(says) << 8)
#define ENDED(ending, at, hops, left) \
    ((uint64_t)(ending) << 8 | (uint64_t)(at) << 16 | (uint64_t)(hops) << 32 | (uint64_t)(left) << 40)
#define READ(switches, pairs_at) ((uint64_t)(switches) << 8 | (uint64_t)(pairs_at) << 16)

/* 01's networks. */
static const uint16_t network_a[] = {
    P(0), P(1), X, X, 2, 3, X, X, /* 0 */
    P(2), P(3), X, X, 2, 3, X, X, /* 1 */
    0,    1,    X, X, X, X, X, X, /* 2 */
    0,    X,    1, X, X, X, X, X, /* 3 */
};
static const uint16_t network_b[] = {
    P(0), X, X, X, 1, 2, X, X, /* 0 */
    3,    3, 3, X, X, X, X, X, /* 1 */
    X,    X, 3, X, X, X, X, X, /* 2 */
    P(1), X, X, X, X, X, X, X, /* 3 */
};
static const uint16_t network_c[] = {
    P(0), X, X, X, X, X, X, 1, P(1), X, X, X, X, X, X, 2, P(2), X, X, X, X, X, X, 3, P(3), X, X, X, X, X, X, 4,
    P(4), X, X, X, X, X, X, 5, P(5), X, X, X, X, X, X, 6, P(6), X, X, X, X, X, X, 7, P(7), X, X, X, X, X, X, 8,
    P(8), X, X, X, X, X, X, X,
};
static const uint16_t network_d[] = {
    P(0), 1, 1, 1, 1, 1, 1, 1, /* 0 */
    2,    2, 2, 2, 2, 2, 2, 2, /* 1 */
    3,    X, X, X, X, X, X, X, /* 2 */
    P(1), X, X, X, X, X, X, X, /* 3 */
};

/* A line with 1, 1, 4, 2, 4, 2 and 5 parallel links. Its tries from the back, at k links (2^k - 1) times one more than
 * those behind: 31, 96, 1,455, 4,368, 65,535, 65,536 (from processor 1), 65,537 (from processor 0). The count from
 * processor 1 is 1 x 4 x 2 x 4 x 2 x 5. */
static const uint16_t line[] = {
    1, X, X, X, X, X, X, P(0), /* 0 */
    2, X, X, X, X, X, X, P(1), /* 1 */
    3, 3, 3, 3, X, X, X, P(2), /* 2 */
    4, 4, X, X, X, X, X, P(3), /* 3 */
    5, 5, 5, 5, X, X, X, P(4), /* 4 */
    6, 6, X, X, X, X, X, P(5), /* 5 */
    7, 7, 7, 7, 7, X, X, P(6), /* 6 */
    X, X, X, X, X, X, X, P(7), /* 7 */
};

/* Two switches that name themselves, the last processor at the first; nothing leads back to it. */
static const uint16_t ends[] = {
    0, 1, P(511), X, X, X, X, X, /* 0 */
    1, X, X,      X, X, X, X, P(0), /* 1 */
};

/* A full table, filled by fill_ring: 64 switches in a ring, ports 0 to 6 to the next, processor s at port 7 of switch
 * s. A stage has 127 choices: 127 tries for one link, 127 x 128 for two, 127 x 16,257 for three. */
static uint16_t ring[512];

/* One switch more than a table may have, and no other fault: all but the first names switch 0. */
static const uint16_t too_long[520] = {P(0), P(2), X, X, X, X, X, X};

static void fill_ring(void)
{
    unsigned s, p;
    for (s = 0; s < 64; s++)
        for (p = 0; p < 8; p++)
            ring[8 * s + p] = (uint16_t)(p < 7 ? (s + 1) % 64 : P(s));
}

/* Entries, with none, one or two of them replaced. */
struct wiring {
    const uint16_t *entries;
    size_t length;
    size_t edits;
    struct {
        size_t at;
        uint16_t entry;
    } edit[2];
};

#define PLAIN(entries, length) {entries, length, 0, {{0, 0}, {0, 0}}}
#define A PLAIN(network_a, 32)
#define B PLAIN(network_b, 32)
#define C PLAIN(network_c, 72)
#define D PLAIN(network_d, 32)
#define LINE PLAIN(line, 64)
#define ENDS PLAIN(ends, 16)
#define RING PLAIN(ring, 512)
#define NO_TABLE PLAIN(NULL, 0)
#define A_WITH(at, entry) {network_a, 32, 1, {{at, entry}, {0, 0}}}
#define A_WITH_BOTH(at, entry, at2, entry2) {network_a, 32, 2, {{at, entry}, {at2, entry2}}}
#define D_WITH(at, entry) {network_d, 32, 1, {{at, entry}, {0, 0}}}

static const struct header_row {
    const char *name;
    struct wiring wiring;
    uint64_t source, target;
    size_t lent;
    uint64_t answer;
    uint8_t words[8];
} header_rows[] = {
    {"case 1: 0 2", A, 0, 2, 8, ISSUED(3, 1, 5), {0x10, 0x02, 0x01}},
    {"case 1: 2 0", A, 2, 0, 8, ISSUED(3, 2, 6), {0x30, 0x01, 0x01}},
    {"case 1: 0 1", A, 0, 1, 8, ISSUED(1, 1, 0), {0x02}},
    {"case 1: 3 3", A, 3, 3, 8, REFUSED(REEDLOCKET_SAME, 0), {0}},
    {"case 1: 0 9", A, 0, 9, 8, REFUSED(REEDLOCKET_NOT_ATTACHED, 0), {0}},
    {"case 4: 0 1", B, 0, 1, 8, ISSUED(3, 3, 12), {0x10, 0x07, 0x01}},
    {"case 4: 1 0", B, 1, 0, 8, REFUSED(REEDLOCKET_UNREACHABLE, 0), {0}},
    {"case 5: 0 7", C, 0, 7, 8, ISSUED(8, 1, 7), {0x80, 0x80, 0x80, 0x80, 0x80, 0x80, 0x80, 0x01}},
    {"case 5: 0 8", C, 0, 8, 8, REFUSED(REEDLOCKET_TOO_FAR, 0), {0}},
    {"case 6", D, 0, 1, 8, ISSUED(4, 56, 64897), {0xFE, 0xFF, 0x01, 0x01}},
    {"case 6, another link", D_WITH(17, 3), 0, 1, 8, REFUSED(REEDLOCKET_TOO_MANY_TRIES, 0), {0}},
    {"no output", A, 0, 2, 0, REFUSED(REEDLOCKET_SHORT_OUTPUT, 0), {0}},
    {"output of 7", A, 0, 1, 7, REFUSED(REEDLOCKET_SHORT_OUTPUT, 0), {0}},
    {"output of 20", A, 2, 0, 20, ISSUED(3, 2, 6), {0x30, 0x01, 0x01}},
    {"output of 20, 8 words", C, 0, 7, 20, ISSUED(8, 1, 7), {0x80, 0x80, 0x80, 0x80, 0x80, 0x80, 0x80, 0x01}},
    {"output of 7, too many tries", D_WITH(17, 3), 0, 1, 7, REFUSED(REEDLOCKET_SHORT_OUTPUT, 0), {0}},
    {"output of 7, too far", C, 0, 8, 7, REFUSED(REEDLOCKET_TOO_FAR, 0), {0}},
    {"65,536 tries", LINE, 1, 7, 8, ISSUED(7, 320, 65536), {0x01, 0x0F, 0x03, 0x0F, 0x03, 0x1F, 0x80}},
    {"65,537 tries", LINE, 0, 7, 8, REFUSED(REEDLOCKET_TOO_MANY_TRIES, 0), {0}},
    {"full table, one link", RING, 63, 0, 8, ISSUED(2, 7, 127), {0x7F, 0x80}},
    {"full table, two links", RING, 0, 2, 8, ISSUED(3, 49, 16256), {0x7F, 0x7F, 0x80}},
    {"full table, three links", RING, 0, 3, 8, REFUSED(REEDLOCKET_TOO_MANY_TRIES, 0), {0}},
    {"full table, eight links", RING, 0, 8, 20, REFUSED(REEDLOCKET_TOO_FAR, 0), {0}},
    {"the last processor", ENDS, 511, 0, 8, ISSUED(2, 1, 1), {0x02, 0x80}},
    {"nothing leads back", ENDS, 0, 511, 8, REFUSED(REEDLOCKET_UNREACHABLE, 0), {0}},
    {"target 65,539", A, 0, 65539, 8, REFUSED(REEDLOCKET_NOT_ATTACHED, 0), {0}},
    {"source 65,539", A, 65539, 0, 8, REFUSED(REEDLOCKET_NOT_ATTACHED, 0), {0}},
    {"source 2^32", A, UINT64_C(1) << 32, 2, 8, REFUSED(REEDLOCKET_NOT_ATTACHED, 0), {0}},
    {"source 2^64 - 1000, which 1000 makes 0", A, UINT64_MAX - 999, 2, 8, REFUSED(REEDLOCKET_NOT_ATTACHED, 0), {0}},
    {"target 64,535, which 1000 makes a dash", A, 0, 64535, 8, REFUSED(REEDLOCKET_NOT_ATTACHED, 0), {0}},
    {"9 twice", A, 9, 9, 8, REFUSED(REEDLOCKET_NOT_ATTACHED, 0), {0}},
    {"no table", NO_TABLE, 0, 2, 8, REFUSED(REEDLOCKET_BAD_LENGTH, 0), {0}},
    {"entry 999 at 0", A_WITH(0, 999), 0, 2, 8, REFUSED(REEDLOCKET_BAD_ENTRY, 0), {0}},
    {"entry 4 of four switches", A_WITH(20, 4), 0, 2, 8, REFUSED(REEDLOCKET_BAD_ENTRY, 20), {0}},
    {"entry 1512, output of 7", A_WITH(31, 1512), 0, 2, 7, REFUSED(REEDLOCKET_BAD_ENTRY, 31), {0}},
    {"two bad entries", A_WITH_BOTH(30, 65534, 6, 500), 0, 2, 8, REFUSED(REEDLOCKET_BAD_ENTRY, 6), {0}},
    {"processor 0 again", A_WITH(23, P(0)), 0, 2, 8, REFUSED(REEDLOCKET_TWO_PORTS, 23), {0}},
    {"again before bad", A_WITH_BOTH(2, P(1), 29, 1512), 0, 2, 8, REFUSED(REEDLOCKET_BAD_ENTRY, 29), {0}},
    {"again twice, 0 9", A_WITH_BOTH(30, P(0), 16, P(3)), 0, 9, 8, REFUSED(REEDLOCKET_TWO_PORTS, 16), {0}},
};

/* Lengths that no fields can have. */
static const struct header_row length_rows[] = {
    {"31 entries", PLAIN(network_a, 31), 0, 2, 8, REFUSED(REEDLOCKET_BAD_LENGTH, 0), {0}},
    {"4 entries, one bad", {network_a, 4, 1, {{0, 999}, {0, 0}}}, 0, 2, 8, REFUSED(REEDLOCKET_BAD_LENGTH, 0), {0}},
    {"519 entries", PLAIN(too_long, 519), 0, 2, 8, REFUSED(REEDLOCKET_BAD_LENGTH, 0), {0}},
    {"520 entries", PLAIN(too_long, 520), 0, 2, 8, REFUSED(REEDLOCKET_BAD_LENGTH, 0), {0}},
};

static const struct distance_row {
    const char *name;
    struct wiring wiring;
    uint64_t source, target;
    uint64_t answer;
} distance_rows[] = {
    {"0 2", A, 0, 2, AWAY(3)},
    {"0 1", A, 0, 1, AWAY(1)},
    {"0 8", C, 0, 8, AWAY(9)},
    {"full table", RING, 3, 2, AWAY(64)},
    {"more tries than allowed", D_WITH(17, 3), 0, 1, AWAY(4)},
    {"8 0", C, 8, 0, REFUSED(REEDLOCKET_UNREACHABLE, 0)},
    {"3 3", A, 3, 3, REFUSED(REEDLOCKET_SAME, 0)},
    {"65,539 0", A, 65539, 0, REFUSED(REEDLOCKET_NOT_ATTACHED, 0)},
    {"again", A_WITH(16, P(0)), 0, 2, REFUSED(REEDLOCKET_TWO_PORTS, 16)},
    {"bad entry", A_WITH(13, 4), 0, 2, REFUSED(REEDLOCKET_BAD_ENTRY, 13)},
    {"520 entries", PLAIN(too_long, 520), 0, 2, REFUSED(REEDLOCKET_BAD_LENGTH, 0)},
};

static const struct mask_row {
    const char *name;
    struct wiring wiring;
    uint64_t source, target;
    size_t lent;
    uint64_t answer;
    uint8_t masks[64];
} mask_rows[] = {
    {"case 2", A, 0, 2, 4, AWAY(3), {0x30, 0x01, 0x02, 0x04}},
    {"output of 20", A, 0, 2, 20, AWAY(3), {0x30, 0x01, 0x02, 0x04}},
    {"output of 7, same switch", A, 0, 1, 7, AWAY(1), {0x02, 0, 0, 0}},
    {"output of 3", A, 0, 2, 3, REFUSED(REEDLOCKET_SHORT_OUTPUT, 0), {0}},
    {"no output", A, 0, 2, 0, REFUSED(REEDLOCKET_SHORT_OUTPUT, 0), {0}},
    {"parallel links", B, 0, 1, 8, AWAY(3), {0x30, 0x07, 0x04, 0x01}},
    {"full table", RING, 0, 2, 64, AWAY(3), {0x7F, 0x7F, 0x80}},
    {"full table, output of 63", RING, 0, 2, 63, REFUSED(REEDLOCKET_SHORT_OUTPUT, 0), {0}},
    {"full table, eight links, output of 63", RING, 0, 8, 63, REFUSED(REEDLOCKET_TOO_FAR, 0), {0}},
    {"more tries than allowed", D_WITH(17, 3), 0, 1, 8, AWAY(4), {0xFE, 0xFF, 0x03, 0x01}},
    {"1 0", B, 1, 0, 8, REFUSED(REEDLOCKET_UNREACHABLE, 0), {0}},
    {"2 2", A, 2, 2, 8, REFUSED(REEDLOCKET_SAME, 0), {0}},
    {"0 65,539", A, 0, 65539, 8, REFUSED(REEDLOCKET_NOT_ATTACHED, 0), {0}},
    {"again", A_WITH(8, P(1)), 0, 2, 8, REFUSED(REEDLOCKET_TWO_PORTS, 8), {0}},
    {"bad entry", A_WITH(8, 999), 0, 2, 8, REFUSED(REEDLOCKET_BAD_ENTRY, 8), {0}},
    {"no table", NO_TABLE, 0, 2, 8, REFUSED(REEDLOCKET_BAD_LENGTH, 0), {0}},
};

static const struct test_row {
    const char *name;
    struct wiring wiring;
    uint64_t source, target;
    size_t words;
    uint8_t header[9];
    uint64_t answer;
} test_rows[] = {
    {"case 3: 10 02 01", A, 0, 2, 3, {0x10, 0x02, 0x01}, SAYS(REEDLOCKET_YES)},
    {"case 3: 20 04 01", A, 0, 2, 3, {0x20, 0x04, 0x01}, SAYS(REEDLOCKET_YES)},
    {"case 3: 30 02 01", A, 0, 2, 3, {0x30, 0x02, 0x01}, SAYS(REEDLOCKET_NO)},
    {"case 3: 10 02", A, 0, 2, 2, {0x10, 0x02}, SAYS(REEDLOCKET_NO)},
    {"masks joined", A, 0, 2, 3, {0x30, 0x06, 0x01}, SAYS(REEDLOCKET_NO)},
    {"an empty word", A, 0, 2, 3, {0x10, 0x02, 0x00}, SAYS(REEDLOCKET_NO)},
    {"a word more", A, 0, 2, 4, {0x10, 0x02, 0x01, 0x01}, SAYS(REEDLOCKET_NO)},
    {"no words", A, 0, 1, 0, {0}, SAYS(REEDLOCKET_NO)},
    {"another processor", A, 0, 2, 3, {0x10, 0x02, 0x02}, SAYS(REEDLOCKET_NO)},
    {"a port with no link", B, 0, 1, 3, {0x10, 0x0F, 0x01}, SAYS(REEDLOCKET_NO)},
    {"parallel links", B, 0, 1, 3, {0x10, 0x07, 0x01}, SAYS(REEDLOCKET_YES)},
    {"common to both", B, 0, 1, 3, {0x30, 0x04, 0x01}, SAYS(REEDLOCKET_YES)},
    {"more tries than allowed", D_WITH(17, 3), 0, 1, 4, {0xFE, 0xFF, 0x03, 0x01}, SAYS(REEDLOCKET_YES)},
    {"full table", RING, 62, 0, 3, {0x7F, 0x7F, 0x80}, SAYS(REEDLOCKET_YES)},
    {"full table, a processor", RING, 62, 0, 3, {0x7F, 0xFF, 0x80}, SAYS(REEDLOCKET_NO)},
    {"9 words", C, 0, 7, 9, {0x80, 0x80, 0x80, 0x80, 0x80, 0x80, 0x80, 0x80, 0x01}, SAYS(REEDLOCKET_NO)},
    {"0 8", C, 0, 8, 9, {0x80, 0x80, 0x80, 0x80, 0x80, 0x80, 0x80, 0x80, 0x01}, REFUSED(REEDLOCKET_TOO_FAR, 0)},
    {"1 0", B, 1, 0, 3, {0x10, 0x07, 0x01}, REFUSED(REEDLOCKET_UNREACHABLE, 0)},
    {"1 1", A, 1, 1, 1, {0x02}, REFUSED(REEDLOCKET_SAME, 0)},
    {"65,536 2", A, 65536, 2, 3, {0x10, 0x02, 0x01}, REFUSED(REEDLOCKET_NOT_ATTACHED, 0)},
    {"again", A_WITH(31, P(2)), 0, 2, 3, {0x10, 0x02, 0x01}, REFUSED(REEDLOCKET_TWO_PORTS, 31)},
    {"bad entry", A_WITH(30, 64), 0, 2, 3, {0x10, 0x02, 0x01}, REFUSED(REEDLOCKET_BAD_ENTRY, 30)},
    {"24 entries and one", PLAIN(network_a, 25), 0, 2, 3, {0x10, 0x02, 0x01}, REFUSED(REEDLOCKET_BAD_LENGTH, 0)},
};

static const struct walk_row {
    const char *name;
    struct wiring wiring;
    uint64_t source;
    size_t words;
    uint8_t header[9];
    size_t chosen;
    uint8_t choices[9];
    uint64_t answer;
} walk_rows[] = {
    {"case 7: 30 02 01", A, 0, 3, {0x30, 0x02, 0x01}, 3, {3, 0, 0}, ENDED(REEDLOCKET_OFF, 3, 1, 2)},
    {"case 7: 02 01", A, 0, 2, {0x02, 0x01}, 2, {0, 0}, ENDED(REEDLOCKET_LEFTOVER, 1, 1, 1)},
    {"case 7: 10 02", A, 0, 2, {0x10, 0x02}, 2, {0, 0}, ENDED(REEDLOCKET_SHORT, 1, 2, 0)},
    {"the other choice", A, 0, 3, {0x30, 0x02, 0x01}, 3, {254, 255, 255}, ENDED(REEDLOCKET_DELIVERED, 2, 3, 0)},
    {"choices beyond the words", A, 2, 3, {0x30, 0x01, 0x01}, 5, {1, 0, 0, 9, 9}, ENDED(REEDLOCKET_DELIVERED, 0, 3, 0)},
    {"no words", A, 2, 0, {0}, 0, {0}, ENDED(REEDLOCKET_SHORT, 1, 0, 0)},
    {"an empty word", A, 0, 3, {0x10, 0x00, 0x01}, 3, {0, 7, 0}, ENDED(REEDLOCKET_EMPTY, 2, 1, 2)},
    {"an empty word at once", A, 0, 1, {0x00}, 1, {1}, ENDED(REEDLOCKET_EMPTY, 0, 0, 1)},
    {"back to the source", A, 0, 3, {0x10, 0x01, 0x01}, 3, {0, 0, 0}, ENDED(REEDLOCKET_DELIVERED, 0, 3, 0)},
    {"a self link", ENDS, 511, 3, {0x01, 0x05, 0x04}, 3, {0, 0, 0}, ENDED(REEDLOCKET_DELIVERED, 511, 3, 0)},
    {"third of eight", D, 0, 2, {0x80, 0xFF}, 2, {0, 10}, ENDED(REEDLOCKET_SHORT, 2, 2, 0)},
    {"8 words", RING, 60, 8, {1, 2, 4, 8, 16, 32, 64, 128}, 8, {0}, ENDED(REEDLOCKET_DELIVERED, 3, 8, 0)},
    {"9 words", RING, 60, 9, {1, 2, 4, 8, 16, 32, 64, 128, 1}, 9, {0}, REFUSED(REEDLOCKET_LONG_HEADER, 0)},
    {"9 words, 8 choices", A, 0, 9, {0x02}, 8, {0}, REFUSED(REEDLOCKET_LONG_HEADER, 0)},
    {"3 words, 2 choices", A, 0, 3, {0x02, 0x01, 0x01}, 2, {0, 0}, REFUSED(REEDLOCKET_FEW_CHOICES, 0)},
    {"1 word, no choices", A, 0, 1, {0x00}, 0, {0}, REFUSED(REEDLOCKET_FEW_CHOICES, 0)},
    {"source 65,539, 9 words", A, 65539, 9, {0}, 0, {0}, REFUSED(REEDLOCKET_NOT_ATTACHED, 0)},
    {"again", A_WITH(7, P(1)), 0, 1, {0x02}, 1, {0}, REFUSED(REEDLOCKET_TWO_PORTS, 7)},
    {"bad entry, not on the way", A_WITH(31, 1512), 0, 1, {0x02}, 1, {0}, REFUSED(REEDLOCKET_BAD_ENTRY, 31)},
    {"no table, 9 words", NO_TABLE, 0, 9, {0}, 0, {0}, REFUSED(REEDLOCKET_BAD_LENGTH, 0)},
};

/* Field bytes: those of a table's rows, then bytes put over them or after them, and of all these the first `size`. */
static const struct field_row {
    const char *name;
    struct wiring wiring;
    size_t at;  /* where bytes are put */
    size_t put; /* how many */
    uint8_t bytes[30];
    size_t size;
    size_t lent;
    uint64_t answer;
} field_rows[] = {
    {"rows alone", A, 76, 0, {0}, 76, 512, READ(4, 76)},
    {"two pairs", A, 76, 14, {2, 0, 4, 0, 0, 0, 2, 2, 0, 4, 255, 255, 0, 0}, 90, 512, READ(4, 76)},
    {"a pair alone", NO_TABLE, 0, 7, {2, 0, 4, 0, 0, 0, 2}, 7, 512, READ(0, 0)},
    {"no fields", NO_TABLE, 0, 0, {0}, 0, 512, READ(0, 0)},
    {"bad entries are not judged", A_WITH_BOTH(0, 999, 31, 65534), 76, 0, {0}, 76, 600, READ(4, 76)},
    {"full table", RING, 1216, 7, {2, 0, 4, 0, 0, 0, 1}, 1223, 520, READ(64, 1216)},
    {"table of 511", A, 76, 0, {0}, 76, 511, REFUSED(REEDLOCKET_SHORT_OUTPUT, 0)},
    {"no table to fill", NO_TABLE, 0, 0, {0}, 0, 0, REFUSED(REEDLOCKET_SHORT_OUTPUT, 0)},
    {"65th tag 1", RING, 1216, 19, {1, 0, 16}, 1235, 512, REFUSED(REEDLOCKET_BAD_FIELD, 1216)},
    {"65th tag 1, table of 7", RING, 1216, 19, {1, 0, 16}, 1235, 7, REFUSED(REEDLOCKET_BAD_FIELD, 1216)},
    {"row cut short", A, 75, 0, {0}, 75, 512, REFUSED(REEDLOCKET_BAD_FIELD, 57)},
    {"one byte", A, 1, 0, {0}, 1, 512, REFUSED(REEDLOCKET_BAD_FIELD, 0)},
    {"pair cut short", A, 76, 6, {2, 0, 4, 0, 0, 0}, 82, 512, REFUSED(REEDLOCKET_BAD_FIELD, 76)},
    {"tag 3", A, 38, 7, {3, 0, 4, 0, 0, 0, 2}, 45, 512, REFUSED(REEDLOCKET_BAD_FIELD, 38)},
    {"tag 0", A, 76, 19, {0, 0, 16}, 95, 512, REFUSED(REEDLOCKET_BAD_FIELD, 76)},
    {"tag 1 of 4 bytes", A, 19, 7, {1, 0, 4, 0, 0, 0, 2}, 26, 512, REFUSED(REEDLOCKET_BAD_FIELD, 19)},
    {"tag 2 of 16 bytes", A, 19, 19, {2, 0, 16}, 38, 512, REFUSED(REEDLOCKET_BAD_FIELD, 19)},
    {"tag 2 of 4 and 256 bytes", RING, 19, 3, {2, 1, 4}, 1216, 512, REFUSED(REEDLOCKET_BAD_FIELD, 19)},
    {"tag 1 of 16 and 256 bytes", RING, 38, 3, {1, 1, 16}, 1216, 512, REFUSED(REEDLOCKET_BAD_FIELD, 38)},
    {"tag 1 after tag 2", A, 76, 26, {2, 0, 4, 0, 0, 0, 2, 1, 0, 16}, 102, 512, REFUSED(REEDLOCKET_BAD_FIELD, 83)},
};

/* The same for the header over fields, from processor 0 to 2; `lent` is its output. */
static const struct field_row damaged_rows[] = {
    {"tag 2", A, 76, 7, {2, 0, 4, 0, 0, 0, 2}, 83, 8, REFUSED(REEDLOCKET_BAD_FIELD, 76)},
    {"tag 2 first", NO_TABLE, 0, 7, {2, 0, 4, 0, 0, 0, 2}, 7, 8, REFUSED(REEDLOCKET_BAD_FIELD, 0)},
    {"tag 2 cut short", A, 38, 3, {2, 0, 4}, 41, 8, REFUSED(REEDLOCKET_BAD_FIELD, 38)},
    {"65th tag 1", RING, 1216, 19, {1, 0, 16}, 1235, 8, REFUSED(REEDLOCKET_BAD_FIELD, 1216)},
    {"65th tag 1 cut short", RING, 1216, 2, {1, 0}, 1218, 8, REFUSED(REEDLOCKET_BAD_FIELD, 1216)},
    {"bad field before a bad entry", A_WITH(0, 999), 75, 0, {0}, 75, 8, REFUSED(REEDLOCKET_BAD_FIELD, 57)},
    {"bad field, no output", A, 75, 0, {0}, 75, 0, REFUSED(REEDLOCKET_BAD_FIELD, 57)},
    {"tag 3", A, 57, 19, {3, 0, 16}, 76, 8, REFUSED(REEDLOCKET_BAD_FIELD, 57)},
    {"tag 1 of 16 and 256 bytes", RING, 57, 3, {1, 1, 16}, 1216, 8, REFUSED(REEDLOCKET_BAD_FIELD, 57)},
    {"two switches of A", A, 38, 0, {0}, 38, 8, REFUSED(REEDLOCKET_BAD_ENTRY, 4)},
};

static struct lent first, second, third;
static int at_edge;
static unsigned calls;
static const char *call, *row_name;

static void about(const char *called, const char *name)
{
    call = called;
    row_name = name;
}

static void differs(const char *what)
{
    printf("%s, %s%s: %s\n", call, row_name, at_edge ? " (at the edge)" : "", what);
    exit(1);
}

/* The memory beyond an edge is touched by a call of the library alone, so what is used here was not at work. */
static void touched(int signal)
{
    (void)signal;
    differs("memory beyond a slice was touched");
}

/* Compares one call: its answer, and what its slices hold. A slice that the call does not have is NULL. */
static void compare(uint64_t got, uint64_t stored, const void *one, const void *two, const void *three)
{
    calls++;
    if (got != stored) {
        printf("returned %016" PRIx64 ", stored %016" PRIx64 "\n", got, stored);
        differs("another answer");
    }
    if (!guards_kept(&first) || !guards_kept(&second) || !guards_kept(&third))
        differs("guard bytes were changed");
    if (!holds(&first, one))
        differs("the first slice holds something else");
    if (two && !holds(&second, two))
        differs("the second slice holds something else");
    if (three && !holds(&third, three))
        differs("the third slice holds something else");
}

static const uint16_t *entries_of(const struct wiring *wiring)
{
    static uint16_t entries[520];
    size_t i;
    if (wiring->length > 0)
        memcpy(entries, wiring->entries, 2 * wiring->length);
    for (i = 0; i < wiring->edits; i++)
        entries[wiring->edit[i].at] = wiring->edit[i].entry;
    return entries;
}

static size_t row_bytes(const struct wiring *wiring, uint8_t *bytes)
{
    const uint16_t *entries = entries_of(wiring);
    size_t i, at = 0;
    for (i = 0; i < wiring->length; i++) {
        if (i % 8 == 0) {
            bytes[at++] = 1;
            bytes[at++] = 0;
            bytes[at++] = 16;
        }
        bytes[at++] = (uint8_t)(entries[i] >> 8);
        bytes[at++] = (uint8_t)entries[i];
    }
    return at;
}

static size_t field_bytes(const struct field_row *row, uint8_t *bytes)
{
    row_bytes(&row->wiring, bytes);
    memcpy(bytes + row->at, row->bytes, row->put);
    return row->size;
}

/* What an output holds before a call, and after it when the first bytes were written. */
static void output(uint8_t *bytes, size_t size, const uint8_t *written, size_t first_bytes)
{
    size_t i;
    for (i = 0; i < size; i++)
        bytes[i] = i < first_bytes ? written[i] : (uint8_t)(0xC3 + 7 * i);
}

/* An empty slice is lent as NULL half the time. */
static void *slice(struct lent *lent, const void *bytes, size_t size)
{
    void *lent_bytes = lend(lent, bytes, size, at_edge);
    return size == 0 && at_edge ? NULL : lent_bytes;
}

static void call_headers(const struct header_row *row, int over_fields)
{
    uint8_t fields[1300], out[64], after[64];
    const uint16_t *entries = entries_of(&row->wiring);
    size_t length = row->wiring.length, size = row_bytes(&row->wiring, fields);
    int issued = reedlocket_answer_number(row->answer) == REEDLOCKET_DONE;
    output(out, row->lent, NULL, 0);
    output(after, row->lent, row->words, issued ? 8 : 0);
    about("reedlocket_table_header", row->name);
    compare(reedlocket_table_header(slice(&first, entries, 2 * length), length, row->source, row->target,
                                    slice(&second, out, row->lent), row->lent),
            row->answer, entries, after, NULL);
    if (!over_fields)
        return;
    about("reedlocket_header", row->name);
    compare(reedlocket_header(slice(&first, fields, size), size, row->source, row->target,
                              slice(&second, out, row->lent), row->lent),
            row->answer, fields, after, NULL);
}

static void call_damaged(const struct field_row *row)
{
    uint8_t fields[1300], out[8];
    size_t size = field_bytes(row, fields);
    output(out, row->lent, NULL, 0);
    about("reedlocket_header", row->name);
    compare(reedlocket_header(slice(&first, fields, size), size, 0, 2, slice(&second, out, row->lent), row->lent),
            row->answer, fields, out, NULL);
}

static void call_distance(const struct distance_row *row)
{
    const uint16_t *entries = entries_of(&row->wiring);
    size_t length = row->wiring.length;
    about("reedlocket_table_distance", row->name);
    compare(reedlocket_table_distance(slice(&first, entries, 2 * length), length, row->source, row->target),
            row->answer, entries, NULL, NULL);
}

static void call_masks(const struct mask_row *row)
{
    uint8_t out[64], after[64];
    const uint16_t *entries = entries_of(&row->wiring);
    size_t length = row->wiring.length;
    int issued = reedlocket_answer_number(row->answer) == REEDLOCKET_DONE;
    output(out, row->lent, NULL, 0);
    output(after, row->lent, row->masks, issued ? length / 8 : 0);
    about("reedlocket_table_masks", row->name);
    compare(reedlocket_table_masks(slice(&first, entries, 2 * length), length, row->source, row->target,
                                   slice(&second, out, row->lent), row->lent),
            row->answer, entries, after, NULL);
}

static void call_test(const struct test_row *row)
{
    const uint16_t *entries = entries_of(&row->wiring);
    size_t length = row->wiring.length;
    about("reedlocket_table_test", row->name);
    compare(reedlocket_table_test(slice(&first, entries, 2 * length), length, row->source, row->target,
                                  slice(&second, row->header, row->words), row->words),
            row->answer, entries, row->header, NULL);
}

static void call_walk(const struct walk_row *row)
{
    const uint16_t *entries = entries_of(&row->wiring);
    size_t length = row->wiring.length;
    about("reedlocket_table_walk", row->name);
    compare(reedlocket_table_walk(slice(&first, entries, 2 * length), length, row->source,
                                  slice(&second, row->header, row->words), row->words,
                                  slice(&third, row->choices, row->chosen), row->chosen),
            row->answer, entries, row->header, row->choices);
}

static void call_fields(const struct field_row *row)
{
    static uint16_t table[600], after[600];
    uint8_t fields[1300];
    size_t size = field_bytes(row, fields), i;
    size_t written = 8 * reedlocket_fields_switches(row->answer);
    const uint16_t *entries = entries_of(&row->wiring);
    for (i = 0; i < row->lent; i++) {
        table[i] = (uint16_t)(0xBEEF + 257 * i);
        after[i] = i < written ? entries[i] : table[i];
    }
    about("reedlocket_fields", row->name);
    compare(reedlocket_fields(slice(&first, fields, size), size, slice(&second, table, 2 * row->lent), row->lent),
            row->answer, fields, after, NULL);
}

static void call_all(void)
{
    size_t i;
    for (i = 0; i < ROWS(header_rows); i++)
        call_headers(&header_rows[i], 1);
    for (i = 0; i < ROWS(length_rows); i++)
        call_headers(&length_rows[i], 0);
    for (i = 0; i < ROWS(damaged_rows); i++)
        call_damaged(&damaged_rows[i]);
    for (i = 0; i < ROWS(distance_rows); i++)
        call_distance(&distance_rows[i]);
    for (i = 0; i < ROWS(mask_rows); i++)
        call_masks(&mask_rows[i]);
    for (i = 0; i < ROWS(test_rows); i++)
        call_test(&test_rows[i]);
    for (i = 0; i < ROWS(walk_rows); i++)
        call_walk(&walk_rows[i]);
    for (i = 0; i < ROWS(field_rows); i++)
        call_fields(&field_rows[i]);
}

/* The parts of answers that no call gives, with every part different. */
static void take_apart(void)
{
    const uint64_t issued = ISSUED(200, 0xABCDEF, 65536), refused = REFUSED(12, 70000);
    const uint64_t ended = ENDED(REEDLOCKET_LEFTOVER, 511, 7, 1), read = READ(64, UINT64_C(0x123456789ABC));
    about("reedlocket.h", "the parts of an answer");
    if (reedlocket_answer_number(issued) != 0 || reedlocket_answer_place(issued) != 0)
        differs("number and place of a success");
    if (reedlocket_answer_distance(issued) != 200 || reedlocket_answer_count(issued) != 0xABCDEF ||
        reedlocket_answer_tries(issued) != 65536)
        differs("distance, count and tries");
    if (reedlocket_test_says(SAYS(2)) != REEDLOCKET_NO)
        differs("what the test says");
    if (reedlocket_walk_ending(ended) != REEDLOCKET_LEFTOVER || reedlocket_walk_at(ended) != 511 ||
        reedlocket_walk_hops(ended) != 7 || reedlocket_walk_left(ended) != 1)
        differs("a walk");
    if (reedlocket_fields_switches(read) != 64 || reedlocket_fields_pairs_at(read) != UINT64_C(0x123456789ABC))
        differs("the field reader");
    if (reedlocket_answer_number(refused) != 12 || reedlocket_answer_place(refused) != 70000)
        differs("number and place of a refusal");
    if (reedlocket_answer_distance(refused) != 0 || reedlocket_answer_count(refused) != 0 ||
        reedlocket_answer_tries(refused) != 0 || reedlocket_test_says(refused) != 0 ||
        reedlocket_walk_ending(refused) != REEDLOCKET_NONE || reedlocket_fields_pairs_at(refused) != 0)
        differs("the other parts of a refusal");
}

int main(void)
{
    take_apart();
    fill_ring();
    signal(SIGSEGV, touched);
    lent_open(&first);
    lent_open(&second);
    lent_open(&third);
    for (at_edge = 0; at_edge < 2; at_edge++) {
        lend(&second, NULL, 0, at_edge);
        lend(&third, NULL, 0, at_edge);
        call_all();
    }
    printf("%u calls agree\n", calls);
    return 0;
}
