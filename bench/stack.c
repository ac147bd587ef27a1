// The deepest stack of reedlocket_header. A thread paints its own stack below the call, makes the call, and looks for
// the lowest byte that has changed; twice, with two colours, so that a byte written with the colour itself is seen.
#define _GNU_SOURCE
#include "networks.h"

#include <pthread.h>
#include <reedlocket.h>
#include <stdio.h>
#include <stdlib.h>
#include <sys/mman.h>

enum { STACK = 1 << 20 };

struct call {
    const uint8_t *fields;
    size_t length;
    uint64_t source, target;
    uint8_t colour, *stack;
    uint64_t answer;
    size_t depth;
};

// Paints up to the stack pointer, calls, and counts from there down; no other call stands between.
static void *painted(void *argument) {
    struct call *c = argument;
    uint8_t out[8];
    volatile uint8_t *top, *lowest;
    __asm__ volatile("mov %%rsp, %0" : "=r"(top));
    for (lowest = c->stack; lowest < top; lowest++)
        *lowest = c->colour;
    c->answer = reedlocket_header(c->fields, c->length, c->source, c->target, out, sizeof out);
    for (lowest = c->stack; lowest < top && *lowest == c->colour; lowest++)
        ;
    c->depth = top - lowest;
    return NULL;
}

static void run(struct call *c) {
    pthread_t thread;
    pthread_attr_t attributes;
    if (pthread_attr_init(&attributes) != 0 || pthread_attr_setstack(&attributes, c->stack, STACK) != 0 ||
        pthread_create(&thread, &attributes, painted, c) != 0 || pthread_join(thread, NULL) != 0) {
        fprintf(stderr, "stack: no thread\n");
        exit(2);
    }
    pthread_attr_destroy(&attributes);
}

// The bytes of stack that a header from one processor to another takes.
static size_t depth(const char *name, const struct network *n, uint64_t source, uint64_t target, uint8_t *stack) {
    static uint8_t fields[MOST_FIELDS];
    struct call c = {.fields = fields, .source = source, .target = target, .stack = stack};
    size_t deepest = 0;
    c.length = put_switches(fields, n);
    for (int i = 0; i < 2; i++) {
        c.colour = i == 0 ? 0xA5 : 0x5A;
        run(&c);
        if (c.depth > deepest)
            deepest = c.depth;
    }
    printf("%-50s %12zu bytes (number %u, distance %u)\n", name, deepest, reedlocket_answer_number(c.answer),
           reedlocket_answer_distance(c.answer));
    return deepest;
}

int main(void) {
    uint8_t *stack = mmap(NULL, STACK, PROT_READ | PROT_WRITE, MAP_PRIVATE | MAP_ANONYMOUS, -1, 0);
    struct network nine = line(9), d = network_d(), full = line(64), nodes = all_nodes();
    if (stack == MAP_FAILED)
        return 2;
    size_t depths[] = {
        depth("stack: a line of 9 switches, distance 8", &nine, 0, 7, stack),
        depth("stack: D", &d, 0, 1, stack),
        depth("stack: a line of 64 switches, distance 8", &full, 0, 7, stack),
        depth("stack: a full table, 512 processors", &nodes, 0, 1, stack),
    };
    size_t deepest = 0;
    for (size_t i = 0; i < sizeof depths / sizeof depths[0]; i++)
        if (depths[i] > deepest)
            deepest = depths[i];
    printf("deepest stack of reedlocket_header: %zu bytes\n", deepest);
    return 0;
}
