#include "networks.h"

enum { THIRD_STAGE = 16, CHIPS = 8 };

static struct network unlinked(size_t switches) {
    struct network n = {.length = 8 * switches};
    for (size_t i = 0; i < n.length; i++)
        n.table[i] = NO_LINK;
    return n;
}

static void join(struct network *n, size_t from, size_t port, size_t to) {
    n->table[8 * from + port] = to;
}

static void cable(struct network *n, size_t a, size_t port_a, size_t b, size_t port_b) {
    join(n, a, port_a, b);
    join(n, b, port_b, a);
}

static void attach(struct network *n, size_t at, size_t port, size_t node) {
    n->table[8 * at + port] = NODE + node;
}

struct network network_a(void) {
    struct network n = unlinked(4);
    for (size_t node = 0; node < 4; node++)
        attach(&n, node / 2, node % 2, node);
    for (size_t s = 0; s < 2; s++) {
        join(&n, s, 4, 2);
        join(&n, s, 5, 3);
    }
    join(&n, 2, 0, 0);
    join(&n, 2, 1, 1);
    join(&n, 3, 0, 0);
    join(&n, 3, 2, 1);
    return n;
}

struct network network_b(void) {
    struct network n = unlinked(4);
    attach(&n, 0, 0, 0);
    attach(&n, 3, 0, 1);
    join(&n, 0, 4, 1);
    join(&n, 0, 5, 2);
    for (size_t p = 0; p < 3; p++)
        join(&n, 1, p, 3);
    join(&n, 2, 2, 3);
    return n;
}

struct network network_d(void) {
    struct network n = unlinked(4);
    for (size_t p = 0; p < 8; p++) {
        join(&n, 0, p, 1);
        join(&n, 1, p, 2);
    }
    attach(&n, 0, 0, 0);
    join(&n, 2, 0, 3);
    attach(&n, 3, 0, 1);
    return n;
}

struct network line(size_t switches) {
    struct network n = unlinked(switches);
    for (size_t s = 0; s < switches; s++) {
        attach(&n, s, 0, s);
        if (s + 1 < switches)
            join(&n, s, 7, s + 1);
    }
    return n;
}

struct network fabric(size_t boards) {
    struct network n = unlinked(CHIPS * boards + THIRD_STAGE);
    for (size_t b = 0; b < boards; b++) {
        for (size_t c = 0; c < 4; c++) {
            for (size_t k = 0; k < 4; k++) {
                attach(&n, CHIPS * b + c, k, 16 * b + 4 * c + k);
                cable(&n, CHIPS * b + c, 4 + k, CHIPS * b + 4 + k, c);
                cable(&n, CHIPS * b + 4 + k, 4 + c, CHIPS * boards + 4 * k + c, b);
            }
        }
    }
    return n;
}

struct network all_nodes(void) {
    struct network n = unlinked(64);
    for (size_t i = 0; i < n.length; i++)
        attach(&n, i / 8, i % 8, i);
    return n;
}

void take_out(struct network *n, size_t links) {
    uint64_t random = 20040601;
    while (links > 0) {
        random ^= random << 13;
        random ^= random >> 7;
        random ^= random << 17;
        size_t i = random % n->length;
        if (n->table[i] < n->length / 8) {
            n->table[i] = NO_LINK;
            links--;
        }
    }
}

static size_t put_number(uint8_t *bytes, unsigned number) {
    bytes[0] = number >> 8;
    bytes[1] = number & 255;
    return 2;
}

size_t put_switches(uint8_t *bytes, const struct network *n) {
    size_t at = 0;
    for (size_t i = 0; i < n->length; i++) {
        if (i % 8 == 0) {
            bytes[at++] = 1;
            at += put_number(bytes + at, 16);
        }
        at += put_number(bytes + at, n->table[i]);
    }
    return at;
}

size_t put_pair(uint8_t *bytes, uint16_t source, uint16_t destination) {
    bytes[0] = 2;
    put_number(bytes + 1, 4);
    put_number(bytes + 3, source);
    put_number(bytes + 5, destination);
    return 7;
}
