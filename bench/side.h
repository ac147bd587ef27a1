// The two sides that are compared: the calls of the library and those of plain.c.
#ifndef SIDE_H
#define SIDE_H

#include <stdbool.h>
#include <stddef.h>
#include <stdint.h>

struct side {
    const char *name;
    uint64_t (*header)(const uint8_t *, size_t, uint64_t, uint64_t, uint8_t *, size_t);
    uint64_t (*table_header)(const uint16_t *, size_t, uint64_t, uint64_t, uint8_t *, size_t);
    uint64_t (*table_distance)(const uint16_t *, size_t, uint64_t, uint64_t);
    uint64_t (*table_test)(const uint16_t *, size_t, uint64_t, uint64_t, const uint8_t *, size_t);
};

// Whether a side answers 01's cases 1 and 3 to 6 as 01 says; tells of each that it doesn't. (Cases 2 and 7 are of masks and walks,
// which the measurement has not.)
bool cases_hold(const struct side *side);

#endif
