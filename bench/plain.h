// A plain C version of header issue, the header test, distance and the field reader, written from paper 01 and not from
// the Rattle code: what the library is measured against. It answers every input and is held to 01's cases before each run.
// It is direct: one search from the
// source and one back from the destination, masks by 01's rule, and a header search that makes the reached set anew for
// each choice.
#ifndef PLAIN_H
#define PLAIN_H

#include <stddef.h>
#include <stdint.h>

// An answer of 01. On refusal all but number and place are 0.
struct answer {
    uint64_t number, place, distance, count, tries;
};

// What the field reader gives; number and place of a refusal, and then 0 for both others.
struct wiring {
    uint64_t number, place;
    size_t switches, first_pair;
};

// Refusals 1 to 3 of a table.
struct answer plain_judge(const uint16_t *table, size_t length);

// Header issue on a table that the judge accepts: refusals 4 to 9.
struct answer plain_pair(const uint16_t *table, size_t length, uint64_t source, uint64_t destination, uint8_t *out,
                         size_t out_length);

// The field reader.
struct wiring plain_fields(const uint8_t *bytes, size_t length, uint16_t *table, size_t table_length);

// The calls of the C library of the same names, with the same packing.
uint64_t plain_header(const uint8_t *fields, size_t length, uint64_t source, uint64_t destination, uint8_t *out,
                      size_t out_length);
uint64_t plain_table_header(const uint16_t *table, size_t length, uint64_t source, uint64_t destination, uint8_t *out,
                            size_t out_length);
uint64_t plain_table_distance(const uint16_t *table, size_t length, uint64_t source, uint64_t destination);
uint64_t plain_table_test(const uint16_t *table, size_t length, uint64_t source, uint64_t destination,
                          const uint8_t *header, size_t header_length);

#endif
