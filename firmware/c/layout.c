/*
 * Prints a column's state by the names of column.h, at the points of a run where each part of it has a value of its own: firmware/layout.out has what
 * the names must show. So it differs when the header moves, and when the library does. At the end it holds the header's lengths against the library's.
 *
 * It is column 3 of 10, with a record of 5 bytes in 3 blocks. What it hears is made up here: columns 7 and 10 are silent in the exchange, column 9
 * does not report.
 */
#include <stdio.h>
#include <stdlib.h>
#include <string.h>

#include "column.h"

enum { N = 10, M = 5, OWN = 3, BLOCKS = 3 };

static struct column_state state;
static uint16_t slice[COLUMN_MOST_VALUES];

static void must(uint8_t answer)
{
    if (answer != COLUMN_DONE) {
        fprintf(stderr, "layout: refused %d\n", answer);
        exit(1);
    }
}

static unsigned word(const uint8_t pair[2])
{
    return pair[0] | pair[1] << 8;
}

static void flags(const char *name, const uint8_t *flag)
{
    printf("  %s", name);
    for (int i = 0; i < 31; i++)
        printf(" %d", flag[i]);
    printf("\n");
}

static void print(const char *when)
{
    printf("%s\n", when);
    printf("  version %d protocol %d poster %d n %d m %d own %d stage %d round %d grade %d vote %d firm %d proposal %u\n", state.version,
           state.protocol, state.poster, state.n, state.m, state.own, state.stage, state.round, state.grade, state.vote, state.firm,
           word(state.proposal));
    printf("  record");
    for (int i = 0; i < 32; i++)
        printf(" %d", state.record[i]);
    printf("\n");
    flags("agreements", state.agreements);
    flags("reports", state.reports);
    printf("  kept");
    for (int i = 0; i < 32; i++)
        printf(" %u", word(state.kept[i]));
    printf("\n");
}

/* Listens in a round of one value, in which the columns 1 to `count`, but for this one, say `value` and the others nothing. */
static void hear(uint16_t value, int count)
{
    must(column_speak(COLUMN_BYTES(state), slice, N));
    for (int j = 0; j < N; j++)
        slice[j] = j < count ? value : COLUMN_BLANK;
    must(column_listen(COLUMN_BYTES(state), slice, N));
}

/* Listens in a round of one value for each block, in which the columns 1 to `count` say `values`. */
static void hear_blocks(const uint16_t values[BLOCKS], int count)
{
    must(column_speak(COLUMN_BYTES(state), slice, N * BLOCKS));
    for (int j = 0; j < N; j++)
        for (int k = 0; k < BLOCKS; k++)
            slice[BLOCKS * j + k] = j < count ? values[k] : COLUMN_BLANK;
    must(column_listen(COLUMN_BYTES(state), slice, N * BLOCKS));
}

static size_t larger(size_t a, size_t b)
{
    return a < b ? b : a;
}

/* The longest slice of messages that any round of any wall has, and that the protocols of the header are all that there are. */
static void lengths(void)
{
    size_t most = 0;
    uint32_t protocols = 0;
    for (uint32_t protocol = 0; protocol <= 255; protocol++) {
        protocols += column_rounds(protocol, 4) != 0;
        for (uint32_t n = 4; n <= COLUMN_MOST_COLUMNS; n++)
            for (uint32_t m = 1; m <= COLUMN_MOST_BYTES; m++)
                for (uint32_t round = 1; round <= 255; round++)
                    most = larger(most, n * column_values(protocol, n, m, round));
    }
    printf("longest slice %zu, in the header %d\n", most, COLUMN_MOST_VALUES);
    printf("protocols %u, in the header %d\n", protocols, COLUMN_POSTING + 1);
}

int main(void)
{
    static const uint8_t record[M] = {200, 100, 7, 8, 9};
    static const uint16_t points[BLOCKS] = {256, 17, 258}; /* 258 is no point */
    static const uint16_t constants[BLOCKS] = {65, 17, 9};
    uint16_t half[BLOCKS];

    must(posting_fresh(N, M, OWN, 9, record, M, COLUMN_BYTES(state)));
    print("fresh in a posting by column 9");
    must(column_fresh(N, M, OWN, record, M, COLUMN_BYTES(state)));
    print("fresh");

    /* A column that agrees with this one sends its two halves the other way round. */
    must(column_speak(COLUMN_BYTES(state), slice, N * 2 * BLOCKS));
    print("having spoken");
    for (int j = 0; j < N; j++) {
        uint16_t *message = &slice[2 * BLOCKS * j];
        memcpy(half, message, sizeof half);
        memcpy(message, message + BLOCKS, sizeof half);
        memcpy(message + BLOCKS, half, sizeof half);
        if (j + 1 == 7 || j + 1 == 10)
            memset(message, 0xff, 2 * sizeof half);
    }
    must(column_listen(COLUMN_BYTES(state), slice, N * 2 * BLOCKS));

    must(column_speak(COLUMN_BYTES(state), slice, N));
    for (int j = 0; j < N; j++)
        slice[j] = j + 1 == 9 ? COLUMN_BLANK : 1;
    must(column_listen(COLUMN_BYTES(state), slice, N));
    hear(1, 6);
    print("after dispersal, 6 second reports heard");

    hear(1, 8);
    print("7 votes for 1 heard, and the own one for 0");
    hear(1, 4);
    print("4 proposals of 1 heard");
    hear(1, 1);
    hear(1, 7);
    hear(1, 7);
    print("a phase later, 7 proposals of 1 heard");
    hear(1, 2);
    for (int phase = 3; phase <= 4; phase++)
        for (int round = 0; round < 3; round++)
            hear(1, 7);
    hear_blocks(points, 5);
    print("points kept");

    struct column_state before = state;
    hear_blocks(points, N);
    print("ended on none: the third block has no points");
    state = before;
    hear_blocks(constants, N);
    print("ended on a record");
    lengths();
    return 0;
}
