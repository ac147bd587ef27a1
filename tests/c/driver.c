/* Calls the library on cases from standard input, a line each: the call, source, target and three slices in
 * hexadecimal digits ('-' is an empty one, 'null' one lent as NULL). Prints a line for each: the number returned, what
 * a lent output then holds, and what is wrong with other memory. Every second case has its slices at the edge. */
#define _DEFAULT_SOURCE
#include "lent.h"
#include "reedlocket.h"

#include <inttypes.h>

struct slice {
    uint8_t *bytes; /* as read */
    size_t size;
    int null;
    struct lent lent;
};

static struct slice slices[3];
static uint64_t source, target;
static int at_edge;

static unsigned digit(char c) { return c <= '9' ? (unsigned)(c - '0') : (unsigned)(c - 'a' + 10); }

/* Digits come with the most significant first; numbers of two bytes are stored as this processor stores them. */
static void read_slice(struct slice *slice, const char *text, size_t width)
{
    size_t i, k;
    slice->null = strcmp(text, "null") == 0;
    slice->size = slice->null || strcmp(text, "-") == 0 ? 0 : strlen(text) / 2;
    slice->bytes = realloc(slice->bytes, slice->size + 1);
    for (i = 0; i < slice->size; i += width)
        for (k = 0; k < width; k++)
            slice->bytes[i + width - 1 - k] = (uint8_t)(digit(text[2 * (i + k)]) << 4 | digit(text[2 * (i + k) + 1]));
}

static uint8_t *bytes_of(struct slice *slice)
{
    void *lent = lend(&slice->lent, slice->bytes, slice->size, at_edge);
    return slice->null ? NULL : (uint8_t *)lent;
}

static uint16_t *numbers_of(struct slice *slice)
{
    void *lent = lend(&slice->lent, slice->bytes, slice->size, at_edge);
    return slice->null ? NULL : (uint16_t *)lent;
}

#define BYTES(i) bytes_of(&slices[i]), slices[i].size
#define NUMBERS(i) numbers_of(&slices[i]), slices[i].size / 2

static uint64_t header(void) { return reedlocket_header(BYTES(0), source, target, BYTES(1)); }
static uint64_t table_header(void) { return reedlocket_table_header(NUMBERS(0), source, target, BYTES(1)); }
static uint64_t table_distance(void) { return reedlocket_table_distance(NUMBERS(0), source, target); }
static uint64_t table_masks(void) { return reedlocket_table_masks(NUMBERS(0), source, target, BYTES(1)); }
static uint64_t table_test(void) { return reedlocket_table_test(NUMBERS(0), source, target, BYTES(1)); }
static uint64_t table_walk(void) { return reedlocket_table_walk(NUMBERS(0), source, BYTES(1), BYTES(2)); }
static uint64_t fields(void) { return reedlocket_fields(BYTES(0), NUMBERS(1)); }

static const struct call {
    const char *name;
    uint64_t (*call)(void);
    size_t slices;
    int output;      /* whether the second slice is lent for writing */
    size_t width[3]; /* bytes of an element */
} calls[] = {
    {"header", header, 2, 1, {1, 1, 1}},
    {"table_header", table_header, 2, 1, {2, 1, 1}},
    {"table_distance", table_distance, 1, 0, {2, 1, 1}},
    {"table_masks", table_masks, 2, 1, {2, 1, 1}},
    {"table_test", table_test, 2, 0, {2, 1, 1}},
    {"table_walk", table_walk, 3, 0, {2, 1, 1}},
    {"fields", fields, 2, 1, {1, 2, 1}},
};

static void print_contents(const struct lent *lent, size_t width)
{
    size_t i, k;
    putchar(' ');
    if (lent->size == 0)
        putchar('-');
    for (i = 0; i < lent->size; i += width)
        for (k = 0; k < width; k++)
            printf("%02x", lent->contents[i + width - 1 - k]);
}

static void run(const struct call *call)
{
    uint64_t answer = call->call();
    size_t i;
    printf("%016" PRIx64, answer);
    if (call->output)
        print_contents(&slices[1].lent, call->width[1]);
    for (i = 0; i < call->slices; i++) {
        if (!guards_kept(&slices[i].lent))
            printf(" GUARD BYTES OF SLICE %zu CHANGED", i);
        if (!(call->output && i == 1) && !holds(&slices[i].lent, slices[i].bytes))
            printf(" INPUT SLICE %zu CHANGED", i);
    }
    putchar('\n');
}

static const struct call *find(const char *name)
{
    size_t i;
    for (i = 0; i < sizeof calls / sizeof calls[0]; i++)
        if (strcmp(calls[i].name, name) == 0)
            return &calls[i];
    fprintf(stderr, "no call %s\n", name);
    exit(2);
}

int main(void)
{
    char *line = NULL;
    size_t room = 0, i;
    /* Where a call ends the program, the lines of the cases before it stand. */
    setvbuf(stdout, NULL, _IOLBF, BUFSIZ);
    for (i = 0; i < 3; i++)
        lent_open(&slices[i].lent);
    while (getline(&line, &room, stdin) > 0) {
        const struct call *call = find(strtok(line, " \n"));
        source = strtoull(strtok(NULL, " \n"), NULL, 10);
        target = strtoull(strtok(NULL, " \n"), NULL, 10);
        for (i = 0; i < 3; i++)
            read_slice(&slices[i], strtok(NULL, " \n"), call->width[i]);
        run(call);
        at_edge = !at_edge;
    }
    free(line);
    return 0;
}
