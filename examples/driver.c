/* Runs the table writer of document 01 through the calls of libntif.a, as a C program does that embeds them.
 *
 *     cc -std=c99 -Iinclude examples/driver.c target/staticlib/libntif.a -o driver
 *     ./driver               the image below
 *     ./driver FILE          an image from a file, with the same variables: i, then the parameter q
 *
 * It checks the image, starts it with q = 2 and steps until a step gives a refusal. Each line is a communication: `write`
 * with its values on gate 1, `done` on gate 2. The last line is the refusal, its number and its place. Exit status: 0 if
 * the automaton ran to where it's blocked (21) or took its thousand steps, 1 if a call gave another refusal, 2 if the
 * program was called wrongly or the file can't be read. */
#include <stdio.h>
#include <string.h>

#include "ntif.h"

enum {
    VARIABLES = 2, /* variables of the table writer */
    Q = 2,         /* its parameter's value */
    UNITS = 100,   /* for one step */
    STEPS = 1000   /* for one run: an image from a file may go on for ever */
};

enum status { RAN = 0, REFUSED = 1, USAGE = 2 };

/* The table writer: two types, i and q, three states, 31 rows, the trailer. */
static const uint8_t table_writer[] = {
    /* types: bool, int */
    0x02, 0x00, 0x00, 0x00,
    /* variables: i, int; q, int and a parameter */
    0x01, 0x00, 0x00, 0x00, 0x01, 0x00, 0x01, 0x00,
    /* states, by the rows of their actions: 5, 29, 30 */
    0x05, 0x00, 0x1d, 0x00, 0x1e, 0x00,
    /* rows 0 to 30, two a line */
    0x02, 0x00, 0x00, 0x00, 0x01, 0x00, 0x00, 0x00, 0x02, 0x00, 0x01, 0x00, 0x00, 0x00, 0x00, 0x00,
    0x2c, 0x00, 0x00, 0x00, 0x01, 0x00, 0xff, 0xff, 0x31, 0x00, 0x02, 0x00, 0x00, 0x00, 0x00, 0x00,
    0x35, 0x00, 0x01, 0x00, 0x00, 0x00, 0x00, 0x00, 0x36, 0x00, 0x03, 0x00, 0x04, 0x00, 0x00, 0x00,
    0x01, 0x00, 0x00, 0x00, 0x00, 0x00, 0x00, 0x00, 0x02, 0x00, 0x01, 0x00, 0x7f, 0x00, 0x00, 0x00,
    0x1b, 0x00, 0x06, 0x00, 0x07, 0x00, 0x00, 0x00, 0x01, 0x00, 0x00, 0x00, 0x00, 0x00, 0x00, 0x00,
    0x01, 0x00, 0x01, 0x00, 0x00, 0x00, 0x00, 0x00, 0x28, 0x00, 0x0a, 0x00, 0xff, 0xff, 0x00, 0x00,
    0x28, 0x00, 0x09, 0x00, 0x0b, 0x00, 0x00, 0x00, 0x34, 0x00, 0x01, 0x00, 0x0c, 0x00, 0x00, 0x00,
    0x01, 0x00, 0x00, 0x00, 0x00, 0x00, 0x00, 0x00, 0x02, 0x00, 0x01, 0x00, 0x01, 0x00, 0x00, 0x00,
    0x14, 0x00, 0x0e, 0x00, 0x0f, 0x00, 0x00, 0x00, 0x2c, 0x00, 0x00, 0x00, 0x10, 0x00, 0xff, 0xff,
    0x31, 0x00, 0x11, 0x00, 0x00, 0x00, 0x00, 0x00, 0x35, 0x00, 0x01, 0x00, 0x00, 0x00, 0x00, 0x00,
    0x36, 0x00, 0x12, 0x00, 0x13, 0x00, 0x00, 0x00, 0x36, 0x00, 0x0d, 0x00, 0x14, 0x00, 0x00, 0x00,
    0x22, 0x00, 0x00, 0x00, 0x01, 0x00, 0x00, 0x00, 0x34, 0x00, 0x02, 0x00, 0xff, 0xff, 0x00, 0x00,
    0x35, 0x00, 0x02, 0x00, 0x00, 0x00, 0x00, 0x00, 0x36, 0x00, 0x17, 0x00, 0x18, 0x00, 0x00, 0x00,
    0x22, 0x00, 0x00, 0x00, 0x00, 0x00, 0x00, 0x00, 0x3a, 0x00, 0x1a, 0x00, 0x19, 0x00, 0xff, 0xff,
    0x3a, 0x00, 0x16, 0x00, 0x15, 0x00, 0x1b, 0x00, 0x38, 0x00, 0x08, 0x00, 0x1c, 0x00, 0x00, 0x00,
    0x37, 0x00, 0xff, 0xff, 0x00, 0x00, 0x00, 0x00,
    /* trailer: starts 0, 4, 12, 18; 3 gates; condition in row 0; length 282; 4E 54 */
    0x00, 0x00, 0x04, 0x00, 0x0c, 0x00, 0x12, 0x00, 0x03, 0x00, 0x00, 0x00, 0x1a, 0x01, 0x4e, 0x54,
};

static void usage(FILE *out, const char *name) {
    fprintf(out,
            "usage: %s [FILE]\n"
            "Checks an automaton, starts it with q = %d and prints what it communicates.\n"
            "FILE holds an image with two variables, the second a parameter; without it the\n"
            "table writer runs.\n",
            name, Q);
}

/* The image's length, or 0 where the file can't be read. One byte more than an image may have is read, so that check
 * refuses a longer one. */
static size_t load(const char *path, uint8_t *image, size_t room) {
    FILE *file = fopen(path, "rb");
    size_t length;

    if (file == NULL) {
        return 0;
    }
    length = fread(image, 1, room, file);
    if (ferror(file)) {
        length = 0;
    }
    fclose(file);
    return length;
}

static void print_refusal(uint64_t answer) { printf("%u at %u\n", ntif_number(answer), ntif_place(answer)); }

/* A communication in one line: what its gate stands for, and its values. */
static void print_label(const uint8_t *label) {
    int32_t gate = ntif_get_word(label, 0);
    int32_t count = ntif_get_word(label, 1);
    int32_t i;

    if (gate == NTIF_NO_GATE) {
        return;
    }
    if (gate == 1) {
        printf("write");
    } else if (gate == 2) {
        printf("done");
    } else {
        printf("gate %d", (int)gate);
    }
    for (i = 0; i < count; i++) {
        printf(" %d", (int)ntif_get_word(label, 2 + (size_t)i));
    }
    printf("\n");
}

/* Steps from state 0 on. The table writer has no choice and receives nothing, so its script is empty. */
static int run(const uint8_t *image, size_t length, uint8_t *store, size_t store_length) {
    static const uint8_t script[4] = {0};
    uint8_t label[NTIF_LABEL_BYTES];
    uint32_t state = 0;
    int steps;

    for (steps = 0; steps < STEPS; steps++) {
        uint64_t answer = ntif_step(image, length, state, store, store_length, script, 0, UNITS, label, sizeof label);

        if (!ntif_moved(answer)) {
            print_refusal(answer);
            return ntif_number(answer) == NTIF_BLOCKED ? RAN : REFUSED;
        }
        print_label(label);
        state = ntif_next_state(answer);
    }
    printf("%d steps taken\n", STEPS);
    return RAN;
}

/* Check, start, run: what an automaton needs from its driver. */
static int drive(const uint8_t *image, size_t length) {
    uint8_t sets[NTIF_SETS_BYTES];
    uint8_t params[4];
    uint8_t store[4 * VARIABLES];
    uint64_t answer = ntif_check(image, length, sets, sizeof sets);

    if (ntif_number(answer) != 0) {
        print_refusal(answer);
        return REFUSED;
    }
    ntif_put_word(params, 0, Q);
    answer = ntif_start(image, length, params, sizeof params, store, sizeof store);
    if (ntif_number(answer) != 0) {
        print_refusal(answer);
        return REFUSED;
    }
    return run(image, length, store, sizeof store);
}

int main(int argc, char **argv) {
    static uint8_t file[NTIF_IMAGE_MOST + 1];
    size_t length;

    if (argc <= 1) {
        return drive(table_writer, sizeof table_writer);
    }
    if (argc == 2 && (strcmp(argv[1], "-h") == 0 || strcmp(argv[1], "--help") == 0)) {
        usage(stdout, argv[0]);
        return RAN;
    }
    if (argc > 2) {
        usage(stderr, argv[0]);
        return USAGE;
    }
    length = load(argv[1], file, sizeof file);
    if (length == 0) {
        fprintf(stderr, "%s: can't read an image from %s\n", argv[0], argv[1]);
        return USAGE;
    }
    return drive(file, length);
}
