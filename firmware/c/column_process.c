/*
 * One column as a program of its own: column_process N M OWN RECORD [POSTER], the record as two hexadecimal digits a byte. With a poster's number it
 * runs a posting, else an agreement. In each round it writes its messages to standard output, two bytes a value, the low one first, then reads the
 * messages to it from standard input; after the last round it writes the 36 bytes of its entry.
 */
#include <stdio.h>
#include <stdlib.h>
#include <string.h>

#include "column.h"

static void stop(const char *why)
{
    fprintf(stderr, "column_process: %s\n", why);
    exit(1);
}

static void must(uint8_t answer, const char *call)
{
    if (answer != COLUMN_DONE) {
        fprintf(stderr, "column_process: %s: refused %d\n", call, answer);
        exit(1);
    }
}

/* A decimal number; one that is none, or too large for any wall, is one that every call refuses. */
static uint32_t number(const char *text)
{
    char *end;
    unsigned long v = strtoul(text, &end, 10);
    return *text == '\0' || *end != '\0' || v > 255 ? 255 : (uint32_t)v;
}

static size_t bytes_of(const char *hex, uint8_t *bytes, size_t room)
{
    size_t digits = strlen(hex);
    if (digits % 2 != 0 || digits / 2 > room || strspn(hex, "0123456789abcdefABCDEF") != digits)
        stop("the record is not at most 32 bytes of two hexadecimal digits");
    for (size_t i = 0; i < digits / 2; i++) {
        char byte[3] = {hex[2 * i], hex[2 * i + 1], '\0'};
        bytes[i] = (uint8_t)strtoul(byte, NULL, 16);
    }
    return digits / 2;
}

static void send(const uint16_t *values, size_t count)
{
    for (size_t i = 0; i < count; i++) {
        putchar(values[i] & 0xff);
        putchar(values[i] >> 8);
    }
    if (fflush(stdout) != 0)
        stop("its messages cannot be written");
}

static void receive(uint16_t *values, size_t count)
{
    for (size_t i = 0; i < count; i++) {
        int low = getchar();
        int high = getchar();
        if (low == EOF || high == EOF)
            stop("its messages ended in the middle of a round");
        values[i] = (uint16_t)(low | high << 8);
    }
}

int main(int count, char **words)
{
    struct column_state state;
    struct column_entry entry;
    uint8_t record[COLUMN_MOST_BYTES];
    uint16_t values[COLUMN_MOST_VALUES];

    if (count != 5 && count != 6)
        stop("usage: column_process N M OWN RECORD [POSTER]");
    uint32_t n = number(words[1]), m = number(words[2]), own = number(words[3]);
    uint32_t protocol = count == 6 ? COLUMN_POSTING : COLUMN_AGREEMENT;
    size_t len = bytes_of(words[4], record, sizeof record);

    if (protocol == COLUMN_POSTING)
        must(posting_fresh(n, m, own, number(words[5]), record, len, COLUMN_BYTES(state)), "posting_fresh");
    else
        must(column_fresh(n, m, own, record, len, COLUMN_BYTES(state)), "column_fresh");

    for (uint32_t round = 1; round <= column_rounds(protocol, n); round++) {
        size_t all = n * column_values(protocol, n, m, round);

        must(column_speak(COLUMN_BYTES(state), values, all), "column_speak");
        send(values, all);
        receive(values, all);
        must(column_listen(COLUMN_BYTES(state), values, all), "column_listen");
    }

    must(column_outcome(COLUMN_BYTES(state), COLUMN_BYTES(entry)), "column_outcome");
    fwrite(&entry, sizeof entry, 1, stdout);
    return fflush(stdout) == 0 ? 0 : 1;
}
