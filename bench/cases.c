#include "networks.h"
#include "side.h"

#include <inttypes.h>
#include <stdio.h>
#include <string.h>

// A header to be issued: the answer's parts and the words.
struct issue {
    char network;
    unsigned source, destination, number, distance, count, tries;
    uint8_t words[8];
};

static const struct issue issues[] = {
    {'A', 0, 2, 0, 3, 1, 5, {0x10, 0x02, 0x01}},
    {'A', 2, 0, 0, 3, 2, 6, {0x30, 0x01, 0x01}},
    {'A', 0, 1, 0, 1, 1, 0, {0x02}},
    {'A', 3, 3, 5, 0, 0, 0, {0}},
    {'A', 0, 9, 4, 0, 0, 0, {0}},
    {'B', 0, 1, 0, 3, 3, 12, {0x10, 0x07, 0x01}},
    {'B', 1, 0, 6, 0, 0, 0, {0}},
    {'C', 0, 7, 0, 8, 1, 7, {0x80, 0x80, 0x80, 0x80, 0x80, 0x80, 0x80, 0x01}},
    {'C', 0, 8, 7, 0, 0, 0, {0}},
    {'D', 0, 1, 0, 4, 56, 64897, {0xFE, 0xFF, 0x01, 0x01}},
    {'E', 0, 1, 9, 0, 0, 0, {0}},
};

// A header to be tested on A, from 0 to 2: 1 yes, 2 no.
struct trial {
    unsigned says, length;
    uint8_t words[3];
};

static const struct trial trials[] = {
    {1, 3, {0x10, 0x02, 0x01}},
    {1, 3, {0x20, 0x04, 0x01}},
    {2, 3, {0x30, 0x02, 0x01}},
    {2, 2, {0x10, 0x02}},
};

// E is D with port 1 of switch 2 also to switch 3.
static struct network named(char name) {
    struct network n = name == 'A' ? network_a() : name == 'B' ? network_b() : name == 'C' ? line(9) : network_d();
    if (name == 'E')
        n.table[8 * 2 + 1] = 3;
    return n;
}

// Issued from the table and from its fields; eight bytes are lent, and a refusal leaves them.
static bool issued(const struct side *side, const struct issue *c) {
    struct network n = named(c->network);
    uint8_t fields[2 * MOST_ENTRIES + 3 * MOST_ENTRIES / 8], lent[2][8], kept[8];
    uint64_t expected = c->number | (uint64_t)c->distance << 8 | (uint64_t)c->count << 16 | (uint64_t)c->tries << 40;
    memset(lent, 0xEE, sizeof lent);
    memset(kept, 0xEE, sizeof kept);
    const uint8_t *after = c->number == 0 ? c->words : kept;
    uint64_t one = side->table_header(n.table, n.length, c->source, c->destination, lent[0], 8);
    uint64_t two = side->header(fields, put_switches(fields, &n), c->source, c->destination, lent[1], 8);
    return one == expected && two == expected && memcmp(lent[0], after, 8) == 0 && memcmp(lent[1], after, 8) == 0;
}

static bool measured(const struct side *side, const struct issue *c) {
    struct network n = named(c->network);
    if (c->number > 6)
        return true;
    uint64_t expected = c->number | (uint64_t)c->distance << 8;
    return side->table_distance(n.table, n.length, c->source, c->destination) == expected;
}

bool cases_hold(const struct side *side) {
    struct network a = network_a();
    bool hold = true;
    for (size_t i = 0; i < sizeof issues / sizeof issues[0]; i++) {
        if (!issued(side, &issues[i]) || !measured(side, &issues[i])) {
            printf("%s: %c, %u to %u is answered wrongly\n", side->name, issues[i].network, issues[i].source,
                   issues[i].destination);
            hold = false;
        }
    }
    for (size_t i = 0; i < sizeof trials / sizeof trials[0]; i++) {
        if (side->table_test(a.table, a.length, 0, 2, trials[i].words, trials[i].length) != trials[i].says << 8) {
            printf("%s: test %zu of case 3 is answered wrongly\n", side->name, i + 1);
            hold = false;
        }
    }
    return hold;
}
