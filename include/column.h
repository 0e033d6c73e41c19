/*
 * A column of a parcel locker wall, for C.
 *
 * The columns of a wall agree on one record, though some of them may be unsound and tell every neighbour something else in every
 * round. A program makes a column once (column_fresh), then in each round lets it speak (column_speak), carries the messages, and
 * lets it listen (column_listen); after the last round it asks what the column ended on (column_outcome). In a posting one column
 * posts its record to all others: there a column is made with posting_fresh. A state tells which protocol it runs, so all other calls are the
 * same for every protocol.
 *
 * Link with libcolumn_bytes.a, which tools/archive writes to target/staticlib/, for x86-64 Linux; it needs memcpy and memset
 * of the program that it is linked with. Every function here is proved to do what is said of it for every input (crates/column_bytes_c, over
 * crates/column_bytes); what is not proved is this file, so firmware/run tests it. Whole walls and the decoder, for tests and tools, are in wall.h.
 *
 * C11 or C++11, and newer.
 *
 * Who owns what. All memory is the caller's, and the library keeps no pointer past a call: it allocates nothing and has no
 * variables of its own, so calls on different states may run at the same time. A slice is a pointer and then a length, the number
 * of its elements. A pointer is never NULL, not of an empty slice either, is aligned for its type (a uint16_t * to two bytes, a uint8_t *
 * stands anywhere) and stays readable, or writable where it is not const, for the whole length; the slices of one call do not
 * overlap. Nothing else is asked: any length and any contents are answered.
 *
 * Stack. The most that a call takes, in bytes, on x86-64; measured, not proved (bench/run stack), and ./check measures again:
 *
 *     column_fresh   1024    posting_fresh  1024
 *     column_speak   3840    column_listen  7168    column_outcome  1024
 *
 * What the board sees to. All columns are made with the same n and m, and for the same protocol: in a posting with the same poster. The message
 * to, or from, column j starts at place (j - 1) times the values of the round. A message that did not come, or came late, is COLUMN_BLANK in every
 * value. A link tells who speaks and does not alter what is said, and nobody speaks in a round before all have listened in the one before: without
 * these nothing is claimed. How a value lies on the wire is the board's affair; the examples send the low byte first.
 *
 * A board that loses power. The state is all that a column knows, so store it, and with it what column_speak wrote, before any of that is sent,
 * and store it again after column_listen. Started again from the last stored state, in the same round, a column has lost nothing: what it
 * sends once more is the same. Started from an older one it speaks a past round again; that, or a round missed, makes it an unsound column
 * until the run ends. A wall bears t of these, and nothing is claimed of what such a column ends on.
 *
 * Answers. Each call that makes, drives or asks a column answers 0, or the number of a refusal (enum column_refusal). A refused call has
 * written to no slice, the state included, and can be made again with better arguments.
 */
#ifndef COLUMN_H
#define COLUMN_H

#include <stddef.h>
#include <stdint.h>

#ifdef __cplusplus
extern "C" {
#define COLUMN_ASSERT static_assert
#else
#define COLUMN_ASSERT _Static_assert
#endif

/* What a value of a message is when nothing is said. */
#define COLUMN_BLANK 65535

/* The lengths of slices: a state and an entry. */
#define COLUMN_STATE_BYTES 171
#define COLUMN_ENTRY_BYTES 36

/* The largest wall, the longest record, and the longest slice of messages that a round can have: the first of a posting, 31 times 32. */
#define COLUMN_MOST_COLUMNS 31
#define COLUMN_MOST_BYTES 32
#define COLUMN_MOST_VALUES 992

/* A variable that is all bytes, as a slice: column_speak(COLUMN_BYTES(state), out, len). */
#define COLUMN_BYTES(variable) ((uint8_t *)&(variable)), sizeof(variable)

/*
 * Why a call was refused. Where several reasons hold, the first of this order is told: 4 for the slice of a state that is not COLUMN_STATE_BYTES
 * long, since no state can be read from it; then a state's (11, 10, 7, 8, 9); then the input's (1, 2, 3, 4, 5, 6). A sheet has its own order,
 * see column_wall in wall.h.
 */
enum column_refusal {
    COLUMN_DONE = 0,
    COLUMN_BAD_WALL = 1,     /* n is not 4 to 31 */
    COLUMN_BAD_RECORD = 2,   /* m is not 1 to 32 */
    COLUMN_BAD_NUMBER = 3,   /* a column's number is not 1 to n */
    COLUMN_BAD_LENGTH = 4,   /* a slice, a state's and a sheet included, has not the length that the call asks for */
    COLUMN_BAD_MARK = 5,     /* a mark of a sheet is neither 0 nor 1 */
    COLUMN_TOO_MANY = 6,     /* a sheet marks more than (n - 1) / 3 columns as unsound */
    COLUMN_MUST_LISTEN = 7,  /* asked to speak, but it spoke in this round and has to listen */
    COLUMN_MUST_SPEAK = 8,   /* asked to listen, but it has not spoken in this round */
    COLUMN_NOT_ENDED = 9,    /* asked for the outcome before the end */
    COLUMN_ENDED = 10,       /* asked to speak or listen after the end */
    COLUMN_NO_STATE = 11     /* the 171 bytes are no state, or a number in them is out of its range */
};

/* What a column runs, by the number that its state has. */
enum column_protocol {
    COLUMN_AGREEMENT = 0, /* on one record */
    COLUMN_POSTING = 1    /* one column posts its record to all others */
};

/* What a column is to do next. */
enum column_stage {
    COLUMN_TO_SPEAK = 0,
    COLUMN_TO_LISTEN = 1,
    COLUMN_ENDED_ON_NONE = 2,
    COLUMN_ENDED_ON_RECORD = 3
};

/*
 * A column's state, version 2: 171 bytes, no padding. A program needs none of these names to run a column: it lends the bytes and may
 * store them, send them and read them. A 16-bit number is two bytes, the low one first. Flags are 0 or 1, and lie by column number: the
 * flag of column j is at place j - 1. Bytes of another version, of no protocol, or of an agreement with a poster are no state (11).
 */
struct column_state {
    uint8_t version;        /*   0: 2 */
    uint8_t protocol;       /*   1: enum column_protocol */
    uint8_t poster;         /*   2: the poster's number, 0 in an agreement */
    uint8_t n;              /*   3: columns of the wall */
    uint8_t m;              /*   4: bytes of a record */
    uint8_t own;            /*   5: the column's own number */
    uint8_t stage;          /*   6: enum column_stage */
    uint8_t round;          /*   7: counted from 1; 0 after the end */
    uint8_t grade;          /*   8: 0, 1 or 2, from the third round of dispersal on */
    uint8_t vote;           /*   9: 0 or 1; in an agreement no round behind 3k + 3 changes it, column k being the first sound one */
    uint8_t firm;           /*  10: a flag */
    uint8_t proposal[2];    /*  11: 0, 1 or blank */
    uint8_t record[32];     /*  13: zeros past m */
    uint8_t agreements[31]; /*  45: flags */
    uint8_t reports[31];    /*  76: flags */
    uint8_t kept[32][2];    /* 107: a point or blank for each block */
};
COLUMN_ASSERT(sizeof(struct column_state) == COLUMN_STATE_BYTES, "a state has 171 bytes");
COLUMN_ASSERT(offsetof(struct column_state, kept) == 107, "the kept points start at byte 107");

/* What a column came to. Of an unsound column of a sheet only the mark is set. */
struct column_entry {
    uint8_t mark;       /* 0 sound, 1 unsound */
    uint8_t grade;      /* 0, 1 or 2: the grade of dispersal, in a posting that of the outcome */
    uint8_t vote;       /* the last vote, 0 or 1; in an agreement one for all sound columns */
    uint8_t has_record; /* 1: ended on `record`; 0: ended on none, and `record` is zeros */
    uint8_t record[32]; /* zeros past m */
};
COLUMN_ASSERT(sizeof(struct column_entry) == COLUMN_ENTRY_BYTES, "an entry has 36 bytes");

/* A RUN: its protocol is a number of enum column_protocol. */

/*
 * The rounds of a wall of n columns: of an agreement 3 t + 8, where t is (n - 1) / 3, of a posting 6. 0 where no protocol has this number, or
 * n is not 4 to 31.
 */
size_t column_rounds(uint32_t protocol, uint32_t n);

/*
 * The values of one message in a round, counted from 1. The slices of that round have n times as many. 0 where no protocol has this number,
 * n is not 4 to 31, m not 1 to 32, or the run has no such round.
 */
size_t column_values(uint32_t protocol, uint32_t n, uint32_t m, uint32_t round);

/* A COLUMN */

/*
 * Makes column `own` of a wall of n columns that runs an agreement, with a record of m bytes, and writes its state.
 * record_len is m, state_len COLUMN_STATE_BYTES. Refused with 1, 2, 3, 4.
 */
uint8_t column_fresh(uint32_t n, uint32_t m, uint32_t own, const uint8_t *record, size_t record_len, uint8_t *state, size_t state_len);

/* The same of a posting by column `poster`; every column is handed a record, and only the poster's is kept. Refused with 3 for either number. */
uint8_t posting_fresh(uint32_t n, uint32_t m, uint32_t own, uint32_t poster, const uint8_t *record, size_t record_len, uint8_t *state, size_t state_len);

/*
 * Writes the messages of the round: one for each column, itself included, by column number, each column_values(protocol, n, m, round) values
 * long. out_len is n times that; state_len is COLUMN_STATE_BYTES. Refused with 4 for another state_len, then with 11, 10, 7, and with 4 for
 * another out_len.
 */
uint8_t column_speak(uint8_t *state, size_t state_len, uint16_t *out, size_t out_len);

/*
 * Reads the messages of the round: one from each column, by column number, in a slice as long as column_speak's. Whatever is not a legal value
 * counts as blank, and what lies at the column's own place is not read. Refused with 4 for another state_len, then with 11, 10, 8, and with 4
 * for another inbox_len.
 */
uint8_t column_listen(uint8_t *state, size_t state_len, const uint16_t *inbox, size_t inbox_len);

/*
 * Writes what the column ended on, a struct column_entry with the mark 0. out_len is COLUMN_ENTRY_BYTES. Refused with 4 for another
 * state_len, then with 11, 9, and with 4 for another out_len.
 */
uint8_t column_outcome(const uint8_t *state, size_t state_len, uint8_t *out, size_t out_len);

#ifdef __cplusplus
}
#endif
#endif
