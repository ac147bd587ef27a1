// Writes the fields of the largest fabric and its first 9,000 pairs of different nodes, as `routes` reads them.
#include "networks.h"

#include <stdio.h>

enum { NODES = 96, PAIRS = 9000 };

int main(void) {
    static uint8_t bytes[MOST_FIELDS];
    struct network n = fabric(6);
    size_t length = put_switches(bytes, &n), pairs = 0;
    for (unsigned i = 0; pairs < PAIRS; i++) {
        if (i / NODES == i % NODES)
            continue;
        length += put_pair(bytes + length, i / NODES, i % NODES);
        pairs++;
    }
    return fwrite(bytes, 1, length, stdout) == length ? 0 : 1;
}
