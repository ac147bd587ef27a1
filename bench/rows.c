// Times the library and the plain C version on the same inputs and prints a row for each: rows RUNS. A run is cut into
// short parts, and the sides take turns at each part, so that what else the machine does falls on both alike. The ratio
// is the median of the runs' ratios. Each side has its own records, which are never cleared; after every run they must
// be equal.
#include "networks.h"
#include "plain.h"
#include "side.h"

#include <reedlocket.h>
#include <stdio.h>
#include <stdlib.h>
#include <string.h>
#include <time.h>

enum { NODES = 64, PAIRS = NODES * (NODES - 1), MOST_RUNS = 1000 };

static const struct side library = {"library", reedlocket_header, reedlocket_table_header, reedlocket_table_distance,
                                    reedlocket_table_test};
static const struct side plain = {"C", plain_header, plain_table_header, plain_table_distance, plain_table_test};

// What one call gave: its answer and what it left in the eight bytes lent.
struct record {
    uint64_t answer;
    uint8_t words[8];
};

static struct record records[2][PAIRS], headers[PAIRS];
static struct network whole, broken, d, nodes;
static unsigned widest_source, widest_destination;
static char widest_name[64];

static void issue(const struct side *side, const struct network *n, unsigned source, unsigned destination,
                  struct record *r) {
    r->answer = side->table_header(n->table, n->length, source, destination, r->words, sizeof r->words);
}

// ---- the work of each row, a part of it at a time

// The pairs of one source, which is the part.
static void pairs(const struct side *side, unsigned part, struct record *r) {
    r += part * (NODES - 1);
    for (unsigned t = 0; t < NODES; t++)
        if (t != part)
            issue(side, &whole, part, t, r++);
}

static void tests(const struct side *side, unsigned part, struct record *r) {
    const struct record *h = headers + part * (NODES - 1);
    r += part * (NODES - 1);
    for (unsigned t = 0; t < NODES; t++) {
        if (t == part)
            continue;
        size_t length = reedlocket_answer_distance(h->answer);
        r->answer = side->table_test(whole.table, whole.length, part, t, h->words, length);
        r++;
        h++;
    }
}

static void most_tries(const struct side *side, unsigned part, struct record *r) {
    (void)part;
    issue(side, &d, 0, 1, r);
}

static void widest_pair(const struct side *side, unsigned part, struct record *r) {
    (void)part;
    for (unsigned i = 0; i < 50; i++)
        issue(side, &broken, widest_source, widest_destination, r);
}

// The judge alone: the table is sound and the source isn't attached.
static void judge(const struct side *side, unsigned part, struct record *r) {
    (void)part;
    for (unsigned i = 0; i < 20; i++)
        r->answer = side->table_distance(nodes.table, nodes.length, 512, 0);
}

struct row {
    const char *name;
    void (*work)(const struct side *side, unsigned part, struct record *r);
    unsigned parts, times; // the parts of a run, and how often what the row names is done in a run
};

static const struct row rows[] = {
    {"all pairs of the 64-node fabric: 4,032 headers", pairs, NODES, 1},
    {"D: one header, 64,897 tries", most_tries, 40, 40},
    {widest_name, widest_pair, 40, 40 * 50},
    {"a full table of 512 processors: one judging", judge, 40, 40 * 20},
    {"all pairs of the 64-node fabric: 4,032 tests", tests, NODES, 1},
};

// ---- setting up

// The first pair of the broken fabric that has the largest count.
static void find_widest(void) {
    struct record r;
    unsigned most = 0;
    for (unsigned s = 0; s < NODES; s++) {
        for (unsigned t = 0; t < NODES; t++) {
            issue(&plain, &broken, s, t, &r);
            if (reedlocket_answer_count(r.answer) > most) {
                most = reedlocket_answer_count(r.answer);
                widest_source = s;
                widest_destination = t;
            }
        }
    }
    snprintf(widest_name, sizeof widest_name, "10 links taken out, %u to %u, count %u: one header", widest_source,
             widest_destination, most);
}

static void prepare(void) {
    whole = broken = fabric(4);
    d = network_d();
    nodes = all_nodes();
    take_out(&broken, 10);
    find_widest();
    for (unsigned part = 0; part < NODES; part++)
        pairs(&plain, part, headers);
    memset(records, 0xEE, sizeof records);
}

// ---- timing

static double microseconds(void) {
    struct timespec t;
    clock_gettime(CLOCK_PROCESS_CPUTIME_ID, &t);
    return t.tv_sec * 1e6 + t.tv_nsec / 1e3;
}

// One run of a row: the processor time that each side takes for what the row names.
static void run_once(const struct row *row, size_t run, double *ours, double *theirs) {
    double spent[2] = {0, 0};
    for (unsigned part = 0; part < row->parts; part++) {
        for (size_t turn = 0; turn < 2; turn++) {
            size_t which = (run + part + turn) % 2;
            double from = microseconds();
            row->work(which == 0 ? &library : &plain, part, records[which]);
            spent[which] += microseconds() - from;
        }
    }
    *ours = spent[0] / row->times;
    *theirs = spent[1] / row->times;
}

static int by_size(const void *a, const void *b) {
    double x = *(const double *)a, y = *(const double *)b;
    return (x > y) - (x < y);
}

static double median(double *times, size_t runs) {
    qsort(times, runs, sizeof *times, by_size);
    return runs % 2 == 1 ? times[runs / 2] : (times[runs / 2 - 1] + times[runs / 2]) / 2;
}

// Runs a row and prints it. False where the sides differ.
static bool measure(const struct row *row, size_t runs) {
    static double ours[MOST_RUNS], theirs[MOST_RUNS], ratios[MOST_RUNS];
    for (size_t run = 0; run < runs; run++) {
        run_once(row, run, &ours[run], &theirs[run]);
        ratios[run] = ours[run] / theirs[run];
        if (memcmp(records[0], records[1], sizeof records[0]) != 0) {
            printf("%s: the sides differ\n", row->name);
            return false;
        }
    }
    printf("%-50s %12.1f %12.1f %8.2f\n", row->name, median(ours, runs), median(theirs, runs), median(ratios, runs));
    fflush(stdout);
    return true;
}

int main(int argc, char **argv) {
    int runs = argc == 2 ? atoi(argv[1]) : 0;
    if (runs < 1 || runs > MOST_RUNS) {
        fprintf(stderr, "usage: rows RUNS (1 to %d)\n", MOST_RUNS);
        return 2;
    }
    bool agree = cases_hold(&library) && cases_hold(&plain);
    prepare();
    for (size_t i = 0; agree && i < sizeof rows / sizeof rows[0]; i++)
        agree = measure(&rows[i], runs);
    return agree ? 0 : 1;
}
