#include "plain.h"

#include <stdbool.h>
#include <string.h>

enum {
    PORTS = 8,
    MOST_SWITCHES = 64,
    MOST_ENTRIES = 512,
    FIRST_NODE = 1000,
    NODES = 512,
    NO_LINK = 65535,
    MOST_HOPS = 8,
    MOST_TRIES = 65536,
    SWITCH_FIELD = 3 + 2 * PORTS,
    PAIR_FIELD = 3 + 4,
};

static struct answer refused(uint64_t number, uint64_t place) {
    return (struct answer){.number = number, .place = place};
}

static uint64_t packed(struct answer a) {
    if (a.number != 0)
        return a.number | a.place << 8;
    return a.distance << 8 | a.count << 16 | a.tries << 40;
}

// ---- the table

static bool is_node(uint16_t entry) {
    return FIRST_NODE <= entry && entry < FIRST_NODE + NODES;
}

struct answer plain_judge(const uint16_t *table, size_t length) {
    if (length == 0 || length > MOST_ENTRIES || length % PORTS != 0)
        return refused(1, 0);
    for (size_t i = 0; i < length; i++)
        if (table[i] >= length / PORTS && !is_node(table[i]) && table[i] != NO_LINK)
            return refused(2, i);
    for (size_t i = 0; i < length; i++) {
        if (!is_node(table[i]))
            continue;
        for (size_t j = 0; j < i; j++)
            if (table[j] == table[i])
                return refused(3, i);
    }
    return refused(0, 0);
}

// The index at which a processor stands, or the length where it isn't attached.
static size_t place_of(const uint16_t *table, size_t length, uint64_t node) {
    size_t i = 0;
    if (node >= NODES)
        return length;
    while (i < length && table[i] != FIRST_NODE + node)
        i++;
    return i;
}

// ---- distances, counted in switches; 0 where there is no way

static void distances_from(const uint16_t *table, size_t length, size_t start, uint8_t *far) {
    uint8_t queue[MOST_SWITCHES];
    size_t head = 0, tail = 0;
    memset(far, 0, MOST_SWITCHES);
    far[start] = 1;
    queue[tail++] = start;
    while (head < tail) {
        size_t s = queue[head++];
        for (size_t p = 0; p < PORTS; p++) {
            uint16_t next = table[PORTS * s + p];
            if (next < length / PORTS && far[next] == 0) {
                far[next] = far[s] + 1;
                queue[tail++] = next;
            }
        }
    }
}

static void distances_to(const uint16_t *table, size_t length, size_t target, uint8_t *near) {
    uint64_t before[MOST_SWITCHES] = {0};
    uint8_t queue[MOST_SWITCHES];
    size_t head = 0, tail = 0;
    for (size_t i = 0; i < length; i++)
        if (table[i] < length / PORTS)
            before[table[i]] |= UINT64_C(1) << i / PORTS;
    memset(near, 0, MOST_SWITCHES);
    near[target] = 1;
    queue[tail++] = target;
    while (head < tail) {
        size_t t = queue[head++];
        for (uint64_t rest = before[t]; rest != 0; rest &= rest - 1) {
            size_t s = __builtin_ctzll(rest);
            if (near[s] == 0) {
                near[s] = near[t] + 1;
                queue[tail++] = s;
            }
        }
    }
}

// ---- one pair

struct pair {
    const uint16_t *table;
    size_t length, from, to; // the indexes at which source and destination stand
    uint64_t distance, tries;
    uint8_t far[MOST_SWITCHES], masks[MOST_SWITCHES];
};

// Refusals 4 to 6, or the distance.
static struct answer measure(struct pair *pair, const uint16_t *table, size_t length, uint64_t source,
                             uint64_t destination) {
    pair->table = table;
    pair->length = length;
    pair->from = place_of(table, length, source);
    pair->to = place_of(table, length, destination);
    pair->tries = 0;
    if (pair->from == length || pair->to == length)
        return refused(4, 0);
    if (source == destination)
        return refused(5, 0);
    distances_from(table, length, pair->from / PORTS, pair->far);
    pair->distance = pair->far[pair->to / PORTS];
    if (pair->distance == 0)
        return refused(6, 0);
    return (struct answer){.distance = pair->distance};
}

// The masks of all switches, by 01's rule.
static void find_masks(struct pair *pair) {
    uint8_t near[MOST_SWITCHES];
    size_t switches = pair->length / PORTS;
    distances_to(pair->table, pair->length, pair->to / PORTS, near);
    for (size_t s = 0; s < switches; s++) {
        pair->masks[s] = 0;
        if (pair->far[s] == 0 || near[s] == 0 || (uint64_t)pair->far[s] + near[s] != pair->distance + 1)
            continue;
        for (size_t p = 0; p < PORTS; p++) {
            uint16_t next = pair->table[PORTS * s + p];
            if (next < switches && near[next] != 0 && near[next] + 1 == near[s])
                pair->masks[s] |= 1 << p;
        }
    }
    pair->masks[pair->to / PORTS] = 1 << pair->to % PORTS;
}

// ---- headers

static uint8_t common_ports(const struct pair *pair, uint64_t set) {
    uint8_t common = 255;
    for (; set != 0; set &= set - 1)
        common &= pair->masks[__builtin_ctzll(set)];
    return common;
}

// The switches reached from a set by the ports of a word, all of which are links.
static uint64_t reached(const struct pair *pair, uint64_t set, uint8_t word) {
    uint64_t next = 0;
    for (; set != 0; set &= set - 1) {
        const uint16_t *ports = pair->table + PORTS * __builtin_ctzll(set);
        for (unsigned rest = word; rest != 0; rest &= rest - 1)
            next |= UINT64_C(1) << ports[__builtin_ctz(rest)];
    }
    return next;
}

// How many lists the widest header from a set permits, its words written; 0 where there is none or the tries have passed
// the limit.
static uint64_t widest(struct pair *pair, uint64_t set, size_t left, uint8_t *words) {
    uint8_t common = common_ports(pair, set);
    uint8_t rest[MOST_HOPS];
    uint64_t best = 0;
    if (left == 1) {
        words[0] = common;
        return __builtin_popcount(common);
    }
    for (uint8_t word = -common & common; word != 0; word = (word - common) & common) {
        if (++pair->tries > MOST_TRIES)
            return 0;
        uint64_t lists = __builtin_popcount(word) * widest(pair, reached(pair, set, word), left - 1, rest);
        if (pair->tries > MOST_TRIES)
            return 0;
        if (lists > best) {
            best = lists;
            words[0] = word;
            memcpy(words + 1, rest, left - 1);
        }
    }
    return best;
}

struct answer plain_pair(const uint16_t *table, size_t length, uint64_t source, uint64_t destination, uint8_t *out,
                         size_t out_length) {
    struct pair pair;
    uint8_t words[MOST_HOPS] = {0};
    struct answer answer = measure(&pair, table, length, source, destination);
    if (answer.number != 0)
        return answer;
    if (pair.distance > MOST_HOPS)
        return refused(7, 0);
    if (out_length < MOST_HOPS)
        return refused(8, 0);
    find_masks(&pair);
    answer.count = widest(&pair, UINT64_C(1) << pair.from / PORTS, pair.distance, words);
    answer.tries = pair.tries;
    if (answer.tries > MOST_TRIES)
        return refused(9, 0);
    memcpy(out, words, MOST_HOPS);
    return answer;
}

static bool passes(const struct pair *pair, const uint8_t *header) {
    uint64_t set = UINT64_C(1) << pair->from / PORTS;
    for (size_t i = 0; i < pair->distance; i++) {
        if (header[i] == 0 || (header[i] & ~common_ports(pair, set)) != 0)
            return false;
        if (i + 1 < pair->distance)
            set = reached(pair, set, header[i]);
    }
    return true;
}

// ---- fields

static uint16_t number_at(const uint8_t *bytes) {
    return bytes[0] << 8 | bytes[1];
}

// The wiring that fields hold, entries unread, or 12 with the first bad field; a tag 2 is bad where pairs aren't wanted.
static struct wiring scan(const uint8_t *bytes, size_t length, bool pairs) {
    struct wiring w = {.first_pair = length};
    size_t at = 0;
    while (at < length) {
        size_t left = length - at;
        bool is_switch = left >= SWITCH_FIELD && bytes[at] == 1 && number_at(bytes + at + 1) == SWITCH_FIELD - 3;
        bool is_pair = left >= PAIR_FIELD && bytes[at] == 2 && number_at(bytes + at + 1) == PAIR_FIELD - 3;
        if (is_switch && w.first_pair == length && w.switches < MOST_SWITCHES) {
            w.switches++;
            at += SWITCH_FIELD;
        } else if (is_pair && pairs) {
            if (w.first_pair == length)
                w.first_pair = at;
            at += PAIR_FIELD;
        } else {
            return (struct wiring){.number = 12, .place = at};
        }
    }
    return w;
}

static void fill(uint16_t *table, const uint8_t *bytes, size_t switches) {
    for (size_t i = 0; i < PORTS * switches; i++)
        table[i] = number_at(bytes + SWITCH_FIELD * (i / PORTS) + 3 + 2 * (i % PORTS));
}

struct wiring plain_fields(const uint8_t *bytes, size_t length, uint16_t *table, size_t table_length) {
    struct wiring w = scan(bytes, length, true);
    if (w.number != 0)
        return w;
    if (table_length < MOST_ENTRIES)
        return (struct wiring){.number = 8};
    fill(table, bytes, w.switches);
    return w;
}

// ---- the calls

uint64_t plain_table_distance(const uint16_t *table, size_t length, uint64_t source, uint64_t destination) {
    struct pair pair;
    struct answer answer = plain_judge(table, length);
    if (answer.number == 0)
        answer = measure(&pair, table, length, source, destination);
    return packed(answer);
}

uint64_t plain_table_header(const uint16_t *table, size_t length, uint64_t source, uint64_t destination, uint8_t *out,
                            size_t out_length) {
    struct answer answer = plain_judge(table, length);
    if (answer.number == 0)
        answer = plain_pair(table, length, source, destination, out, out_length);
    return packed(answer);
}

uint64_t plain_table_test(const uint16_t *table, size_t length, uint64_t source, uint64_t destination,
                          const uint8_t *header, size_t header_length) {
    struct pair pair;
    struct answer answer = plain_judge(table, length);
    if (answer.number == 0)
        answer = measure(&pair, table, length, source, destination);
    if (answer.number == 0 && pair.distance > MOST_HOPS)
        answer = refused(7, 0);
    if (answer.number != 0)
        return packed(answer);
    if (header_length != pair.distance)
        return 2 << 8;
    find_masks(&pair);
    return (passes(&pair, header) ? 1 : 2) << 8;
}

uint64_t plain_header(const uint8_t *fields, size_t length, uint64_t source, uint64_t destination, uint8_t *out,
                      size_t out_length) {
    uint16_t table[MOST_ENTRIES];
    struct wiring w = scan(fields, length, false);
    if (w.number != 0)
        return packed(refused(w.number, w.place));
    fill(table, fields, w.switches);
    return plain_table_header(table, PORTS * w.switches, source, destination, out, out_length);
}
