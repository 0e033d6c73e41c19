/*
 * Lists a posting wall by the run's lent row: an array of structs, one for each column, which the proved call fills. The sheet's bytes come from
 * standard input, the poster's number is the argument. A refused run must leave the row as it was.
 *
 * The call is for tests and tools: wall.h has it, and libwall_bytes.a, not the board's archive.
 */
#include <stdio.h>
#include <stdlib.h>
#include <string.h>

#include "wall.h"

/* One byte more than the longest sheet has. */
static uint8_t sheet[42566];

static void list(size_t number, const struct column_entry *entry, size_t m)
{
    if (entry->mark != 0) {
        printf("%zu unsound\n", number);
        return;
    }
    printf("%zu sound grade %d bit %d record ", number, entry->grade, entry->vote);
    for (size_t p = 0; entry->has_record && p < m; p++)
        printf("%02x", entry->record[p]);
    printf(entry->has_record ? "\n" : "none\n");
}

int main(int count, char **words)
{
    struct column_entry row[256], before[256];
    uint8_t poster = count == 2 ? (uint8_t)atoi(words[1]) : 0;
    size_t len = fread(sheet, 1, sizeof sheet, stdin);
    size_t n = sheet[0], m = sheet[1];

    memset(row, 0xEE, sizeof row);
    memcpy(before, row, sizeof row);
    uint8_t why = posting_rows(poster, sheet, len, row, n);
    if (memcmp(row + (why ? 0 : n), before, sizeof row - (why ? 0 : n) * sizeof row[0]) != 0) {
        fprintf(stderr, "posting_rows: the row is written past the wall, or beside the refusal %d\n", why);
        return 1;
    }
    if (why != COLUMN_DONE) {
        printf("refused %d\n", why);
        return 0;
    }
    for (size_t i = 0; i < n; i++)
        list(i + 1, &row[i], m);
    return 0;
}
