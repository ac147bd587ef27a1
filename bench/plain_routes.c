// The program `routes` in plain C: fields from standard input, a line for each pair, the table judged once.
#include "plain.h"

#include <stdio.h>

enum { MOST_INPUT = 65536, PAIR_FIELD = 7 };

static void print_pair(const uint16_t *table, size_t length, struct answer verdict, const uint8_t *value) {
    unsigned source = value[0] << 8 | value[1], destination = value[2] << 8 | value[3];
    uint8_t words[8];
    struct answer a = verdict;
    if (a.number == 0)
        a = plain_pair(table, length, source, destination, words, sizeof words);
    printf("%u %u %u %u %u %u", source, destination, (unsigned)a.number, (unsigned)a.distance, (unsigned)a.count,
           (unsigned)a.tries);
    if (a.number != 0)
        printf(" -");
    for (size_t i = 0; i < a.distance; i++)
        printf(" %02X", words[i]);
    putchar('\n');
}

int main(void) {
    static uint8_t input[MOST_INPUT + 1];
    static uint16_t table[512];
    size_t length = fread(input, 1, sizeof input, stdin);
    if (length > MOST_INPUT) {
        puts("input too long");
        return 0;
    }
    struct wiring w = plain_fields(input, length, table, 512);
    if (w.number != 0) {
        printf("bad field at %u\n", (unsigned)w.place);
        return 0;
    }
    struct answer verdict = plain_judge(table, 8 * w.switches);
    puts("src dst ans dist count tries words");
    for (size_t at = w.first_pair; at < length; at += PAIR_FIELD)
        print_pair(table, 8 * w.switches, verdict, input + at + 3);
    return 0;
}
