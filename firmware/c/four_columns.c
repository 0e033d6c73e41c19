/*
 * Four columns agree on a record of one byte, over buffers. Columns 1 and 2 hold 41, column 3 holds 42 (hexadecimal); column 4 lies to every
 * neighbour: it tells column 1 that it holds 41 and reports twice, column 2 the same without the second report, and column 3 nothing.
 */
#include <stdio.h>
#include <stdlib.h>
#include <string.h>

#include "column.h"

enum { N = 4, M = 1, SOUND = 3, LINE = 12 };

#define B COLUMN_BLANK
/* What column 4 sends to each column, all rounds one after the other. */
static const uint16_t lies[N][LINE] = {
    {0x41, 0x41, 1, 1, B, B, B, B, B, B, B, B},
    {0x41, 0x41, 1, B, B, B, B, B, B, B, B, B},
    {B, B, B, B, B, B, B, B, B, B, B, B},
    {B, B, B, B, B, B, B, B, B, B, B, B},
};
#undef B

static void must(uint8_t answer, const char *call)
{
    if (answer != COLUMN_DONE) {
        fprintf(stderr, "%s: refused %d\n", call, answer);
        exit(1);
    }
}

int main(void)
{
    static const uint8_t held[SOUND] = {0x41, 0x41, 0x42};
    struct column_state columns[SOUND];
    uint16_t mail[N][COLUMN_MOST_VALUES]; /* what each column wrote in this round, by sender */
    size_t said = 0;                      /* values of the lies that were sent in earlier rounds */

    for (uint32_t i = 0; i < SOUND; i++)
        must(column_fresh(N, M, i + 1, &held[i], M, COLUMN_BYTES(columns[i])), "column_fresh");

    for (uint32_t round = 1; round <= column_rounds(COLUMN_AGREEMENT, N); round++) {
        size_t width = column_values(COLUMN_AGREEMENT, N, M, round);

        for (uint32_t i = 0; i < SOUND; i++)
            must(column_speak(COLUMN_BYTES(columns[i]), mail[i], N * width), "column_speak");
        for (size_t to = 0; to < N; to++)
            memcpy(&mail[N - 1][to * width], &lies[to][said], width * sizeof lies[0][0]);
        said += width;

        for (uint32_t i = 0; i < SOUND; i++) {
            uint16_t inbox[COLUMN_MOST_VALUES];
            for (size_t from = 0; from < N; from++)
                memcpy(&inbox[from * width], &mail[from][i * width], width * sizeof inbox[0]);
            must(column_listen(COLUMN_BYTES(columns[i]), inbox, N * width), "column_listen");
        }
    }

    printf("wall %d %d t 1 d 0 blocks 1 rounds %zu\n", N, M, column_rounds(COLUMN_AGREEMENT, N));
    for (uint32_t i = 0; i < SOUND; i++) {
        struct column_entry entry;
        must(column_outcome(COLUMN_BYTES(columns[i]), COLUMN_BYTES(entry)), "column_outcome");
        printf("%u sound grade %d bit %d record ", i + 1, entry.grade, entry.vote);
        if (entry.has_record)
            printf("%02x\n", entry.record[0]);
        else
            printf("none\n");
    }
    printf("4 unsound\n");
    return 0;
}
