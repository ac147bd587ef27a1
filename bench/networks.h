// The networks that are measured, as wiring tables and as fields.
#ifndef NETWORKS_H
#define NETWORKS_H

#include <stddef.h>
#include <stdint.h>

enum { MOST_ENTRIES = 512, MOST_FIELDS = 65536, NODE = 1000, NO_LINK = 65535 };

struct network {
    size_t length;
    uint16_t table[MOST_ENTRIES];
};

// 01's networks A, B and D, and a line of switches as in C.
struct network network_a(void);
struct network network_b(void);
struct network network_d(void);
struct network line(size_t switches);

// Boards of eight chips, wired as request K11 says, and 16 switches in a third stage, one cable from each board to each.
// Four boards are the 64-node fabric (48 switches); six fill the table (64 switches, 96 nodes).
struct network fabric(size_t boards);

// 64 switches with a processor at every port.
struct network all_nodes(void);

// Takes out links, one way each, chosen by a fixed seed.
void take_out(struct network *network, size_t links);

// Writes the tag 1 fields of a network, or one tag 2 field, and returns how many bytes that took.
size_t put_switches(uint8_t *bytes, const struct network *network);
size_t put_pair(uint8_t *bytes, uint16_t source, uint16_t destination);

#endif
