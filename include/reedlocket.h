/* Reedlocket: routes for multistage switch fabrics. What libloader.a (x86-64) offers to C and C++.
 *
 * A wiring table has eight entries for each switch, switch 0 first, port 0 first. An entry is the number of a switch,
 * or REEDLOCKET_FIRST_PROCESSOR plus the number of a processor, or REEDLOCKET_NO_LINK. Field bytes are one-byte tag,
 * two-byte length, value, with the most significant byte of every number first. Tag 1, length 16: the eight entries of
 * the next switch. Tag 2, length 4: a pair of processors, source and then target.
 *
 * A slice is a pointer, then a length counted in elements; an empty one may be NULL, 0. A slice that is written must
 * not overlap another, and a table must be aligned for its elements. Every table, processor number, header and length
 * gets an answer; no value needs to be checked before a call, and nothing is kept between calls.
 *
 * An answer is one number: the refusal number in the lowest 8 bits, the other parts above it, to be read by the
 * functions at the end of this file. On refusal no lent byte is changed. Where several refusals hold, the lowest number
 * is given, except that REEDLOCKET_BAD_FIELD comes before all. */
#ifndef REEDLOCKET_H
#define REEDLOCKET_H

#include <stddef.h>
#include <stdint.h>

#ifdef __cplusplus
extern "C" {
#endif

enum {
    REEDLOCKET_FIRST_PROCESSOR = 1000, /* the entry of processor 0; that of processor 511 is 1511 */
    REEDLOCKET_NO_LINK = 65535,
    REEDLOCKET_WORDS = 8,    /* the most words of a header, and the output bytes that header issue needs */
    REEDLOCKET_ENTRIES = 512 /* the most entries of a table, and the numbers that reedlocket_fields needs */
};

/* Refusal numbers. The place is 0 where none is named. */
enum {
    REEDLOCKET_DONE = 0,
    REEDLOCKET_BAD_LENGTH = 1,     /* the table's length is 0, over 512 or no multiple of 8 */
    REEDLOCKET_BAD_ENTRY = 2,      /* an entry is none of the three kinds; place: the lowest such index */
    REEDLOCKET_TWO_PORTS = 3,      /* a processor stands at two ports; place: the lowest index that repeats one */
    REEDLOCKET_NOT_ATTACHED = 4,   /* a named processor stands at no port */
    REEDLOCKET_SAME = 5,           /* source and target are the same */
    REEDLOCKET_UNREACHABLE = 6,    /* no chain of links joins them */
    REEDLOCKET_TOO_FAR = 7,        /* the distance is over 8 */
    REEDLOCKET_SHORT_OUTPUT = 8,   /* the lent output is too short */
    REEDLOCKET_TOO_MANY_TRIES = 9, /* the search would pass 65,536 tries */
    REEDLOCKET_LONG_HEADER = 10,   /* walk: the header has over 8 words */
    REEDLOCKET_FEW_CHOICES = 11,   /* walk: fewer choice bytes than words */
    REEDLOCKET_BAD_FIELD = 12      /* a wiring field is bad; place: the offset of its first byte */
};

/* What the header test says. */
enum { REEDLOCKET_YES = 1, REEDLOCKET_NO = 2 };

/* How a walk ends. */
enum {
    REEDLOCKET_NONE = 0,      /* refused */
    REEDLOCKET_DELIVERED = 1, /* at a processor, no words left */
    REEDLOCKET_LEFTOVER = 2,  /* at a processor, some words left */
    REEDLOCKET_EMPTY = 3,     /* at a switch whose word is 0 */
    REEDLOCKET_OFF = 4,       /* at a switch whose chosen port has no link */
    REEDLOCKET_SHORT = 5      /* at a switch, no words left */
};

/* Issues the widest header of a pair. Reads tag 1 fields alone: a tag 2 is a bad field. On success out[0] to out[7]
 * become the words and then zeros; later bytes keep their contents. Answers distance, count and tries. Refuses with 12
 * or 1 to 9. */
uint64_t reedlocket_header(const uint8_t *fields, size_t fields_len, uint64_t source, uint64_t target, uint8_t *out,
                           size_t out_len);

/* The same over a table. Refuses with 1 to 9. */
uint64_t reedlocket_table_header(const uint16_t *table, size_t table_len, uint64_t source, uint64_t target,
                                 uint8_t *out, size_t out_len);

/* Counts the switches on a shortest way; the distance may be over 8. Writes nothing. Answers the distance. Refuses
 * with 1 to 6. */
uint64_t reedlocket_table_distance(const uint16_t *table, size_t table_len, uint64_t source, uint64_t target);

/* Gives the mask of each switch for a pair: bit p where port p starts a shortest way onward, and 0 for a switch off
 * every shortest way. On success out[s] becomes the mask of switch s, for each switch of the table; later bytes keep
 * their contents. Needs as many output bytes as there are switches. Answers the distance. Refuses with 1 to 8. */
uint64_t reedlocket_table_masks(const uint16_t *table, size_t table_len, uint64_t source, uint64_t target, uint8_t *out,
                                size_t out_len);

/* Tests a header, one byte for each word. Says REEDLOCKET_YES exactly when no word is 0 and every list with one port
 * from each word is a shortest way to the target. A header of any length but the distance gets REEDLOCKET_NO. Writes
 * nothing. Refuses with 1 to 7. */
uint64_t reedlocket_table_test(const uint16_t *table, size_t table_len, uint64_t source, uint64_t target,
                               const uint8_t *header, size_t header_len);

/* Walks one packet from the source. Each switch takes the first word, uses the permitted port that has exactly (choice
 * modulo the number of permitted ports) permitted ports below it, and strips the word. Choice bytes beyond the words
 * are not read. Writes nothing. Answers the ending, the processor or switch at which it ended, the hops, and the words
 * left; at REEDLOCKET_EMPTY and REEDLOCKET_OFF the word being read counts as left. Refuses with 1 to 4, 10 or 11. */
uint64_t reedlocket_table_walk(const uint16_t *table, size_t table_len, uint64_t source, const uint8_t *header,
                               size_t header_len, const uint8_t *choices, size_t choices_len);

/* Reads tag 1 fields and after them tag 2 fields, and does not judge the entries. On success the table begins with the
 * eight entries of each tag 1; later ones keep their contents. Answers the number of switches and the offset of the
 * first tag 2, or the input's length if there is none. Refuses with 12, or with 8 if the lent table holds fewer than
 * 512 numbers. */
uint64_t reedlocket_fields(const uint8_t *fields, size_t fields_len, uint16_t *table, size_t table_len);

/* The parts of an answer. On success number and place are 0; on refusal all the others are. */

static inline unsigned reedlocket_answer_number(uint64_t answer) { return (unsigned)(answer & 0xFF); }

static inline uint64_t reedlocket_answer_place(uint64_t answer)
{
    return reedlocket_answer_number(answer) == REEDLOCKET_DONE ? 0 : answer >> 8;
}

static inline uint64_t reedlocket_answer_part(uint64_t answer, unsigned from_bit, unsigned bits)
{
    if (reedlocket_answer_number(answer) != REEDLOCKET_DONE)
        return 0;
    return answer >> from_bit & (((uint64_t)1 << bits) - 1);
}

/* Of reedlocket_header, reedlocket_table_header, reedlocket_table_distance and reedlocket_table_masks; the last two have
 * count and tries 0. */
static inline unsigned reedlocket_answer_distance(uint64_t answer)
{
    return (unsigned)reedlocket_answer_part(answer, 8, 8);
}

static inline uint32_t reedlocket_answer_count(uint64_t answer)
{
    return (uint32_t)reedlocket_answer_part(answer, 16, 24);
}

static inline uint32_t reedlocket_answer_tries(uint64_t answer)
{
    return (uint32_t)reedlocket_answer_part(answer, 40, 24);
}

/* Of the test: REEDLOCKET_YES, REEDLOCKET_NO, or 0 on refusal. */
static inline unsigned reedlocket_test_says(uint64_t answer) { return (unsigned)reedlocket_answer_part(answer, 8, 8); }

/* Of the walk; reedlocket_walk_at is a processor at REEDLOCKET_DELIVERED and REEDLOCKET_LEFTOVER, else a switch. */
static inline unsigned reedlocket_walk_ending(uint64_t answer)
{
    return (unsigned)reedlocket_answer_part(answer, 8, 8);
}

static inline unsigned reedlocket_walk_at(uint64_t answer) { return (unsigned)reedlocket_answer_part(answer, 16, 16); }
static inline unsigned reedlocket_walk_hops(uint64_t answer) { return (unsigned)reedlocket_answer_part(answer, 32, 8); }
static inline unsigned reedlocket_walk_left(uint64_t answer) { return (unsigned)reedlocket_answer_part(answer, 40, 8); }

/* Of the field reader. */
static inline unsigned reedlocket_fields_switches(uint64_t answer)
{
    return (unsigned)reedlocket_answer_part(answer, 8, 8);
}

static inline uint64_t reedlocket_fields_pairs_at(uint64_t answer) { return reedlocket_answer_part(answer, 16, 48); }

#ifdef __cplusplus
}
#endif

#endif
