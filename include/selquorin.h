/*
 * Selquorin for C and C++: in how many journals a word is, and the words that a quorum has in
 * common.
 *
 * The calls stand in libselquorin.a, which `bash rust/archive.sh` makes at the root of the
 * repository, as target/staticlib/libselquorin.a. It is for x86-64 Linux.
 *
 * The caller lends all memory. A piece of lent memory is a pointer to its first byte and the number
 * of its bytes. What the caller has to see to:
 *
 *   - behind a pointer there are as many bytes as the number says, to read, and to write where the
 *     pointer is no pointer to const;
 *   - no pointer is NULL, not even with 0 bytes: for the empty word any other pointer will do;
 *   - memory that is lent to write overlaps no other piece lent to the same call;
 *   - during the call no other thread writes lent memory, or reads what is lent to write;
 *   - there are 256 KB of stack.
 *
 * Everything else is answered by the call: a wrong size and damaged bytes too have their number. No
 * call keeps a pointer, takes memory from the heap, or has any state of its own.
 *
 * Each call answers a number: 0 for "done", or why it was refused (selquorin_number; in words:
 * selquorin_message). A refusal writes nothing. Where more than one refusal holds, the one that is
 * named first beside the call is given. Calls with a further answer pack it into the same integer;
 * the functions at the end of this file take it apart.
 *
 * Steps have the codes 0 to 15, and a word is a row of them. It is in a journal when it is what is
 * left of it after some of its steps, or none, are struck out. Its place there is where it ends if
 * each step is found as early as can be: the number of that step, from 1, and 0 for the empty word.
 * A word that isn't in has lost its place. The row book has a row for each live state: a row of
 * places, one in each journal, that some word has, and of which one at least isn't lost. An arc
 * leads from a row by a step to the row of the words with that step more. The books are sound when
 * both have their form and the row book has just the rows that the journals give.
 */
#ifndef SELQUORIN_H
#define SELQUORIN_H

#include <stddef.h>
#include <stdint.h>

#ifdef __cplusplus
extern "C" {
#endif

/* The version of this header and of the library. */
#define SELQUORIN_VERSION "0.1.0"
#define SELQUORIN_VERSION_MAJOR 0
#define SELQUORIN_VERSION_MINOR 1
#define SELQUORIN_VERSION_PATCH 0

/* The bytes of a journal book: 16 records of 256. */
#define SELQUORIN_JOURNAL_BOOK 4096
/* The bytes of a row book: 1,000 records of 64. */
#define SELQUORIN_ROW_BOOK 64000
/* The bytes of a word record: one for the length, 15 for the steps and zeros behind them. */
#define SELQUORIN_WORD_RECORD 16
/* The bytes of a row record: 16 places, 16 arcs of two bytes, low byte first, the count, zeros. */
#define SELQUORIN_ROW_RECORD 64
/* The most bytes of a list's output: 4,096 word records. The fewest are those of one. */
#define SELQUORIN_LARGEST_OUTPUT 65536

/* The most journals, steps of a journal, rows, and steps of a word record. */
#define SELQUORIN_MOST_JOURNALS 16
#define SELQUORIN_LONGEST_JOURNAL 200
#define SELQUORIN_MOST_ROWS 1000
#define SELQUORIN_LONGEST_WORD 15

/* In a row record: the place byte of a journal that doesn't hold the row's words. */
#define SELQUORIN_LOST 255

/* What each number says. */
enum selquorin_number {
    SELQUORIN_DONE = 0,          /* done */
    SELQUORIN_WRONG_SIZE = 1,    /* wrong size of a book, the list's output or a word record */
    SELQUORIN_DAMAGED = 2,       /* the books are damaged; selquorin_check says where */
    SELQUORIN_WRONG_STEP = 3,    /* a step above 15 */
    SELQUORIN_NO_JOURNAL = 4,    /* append with no journal open */
    SELQUORIN_JOURNAL_FULL = 5,  /* the last journal has 200 steps */
    SELQUORIN_ROWS_FULL = 6,     /* there would be more than 1,000 rows */
    SELQUORIN_JOURNALS_FULL = 7, /* 16 journals are open already */
    SELQUORIN_WRONG_QUORUM = 8,  /* quorum below 1 or above the number of journals */
    SELQUORIN_WRONG_LENGTH = 9,  /* list length above 15 */
    SELQUORIN_WRONG_WORD = 10,   /* a word record lacks its form, or exceeds the list length */
    SELQUORIN_BROKEN_ENTRY = 11, /* the loading program only: a broken journal entry */
    SELQUORIN_WRONG_ASK = 12,    /* the loading program only: the ask has neither 0 nor 2 bytes */
    SELQUORIN_WRONG_ROW = 13     /* no such row: they have the numbers 0 to 999 */
};

/* Clears the books: makes every byte of both zero, whatever they held. Refusals: 1. */
uint8_t selquorin_clear(uint8_t *journals, size_t journals_length, uint8_t *rows,
                        size_t rows_length);

/* Opens an empty journal behind the others. Refusals: 1, 2, 7. */
uint8_t selquorin_open(uint8_t *journals, size_t journals_length, uint8_t *rows,
                       size_t rows_length);

/* Appends a step to the journal opened last. Refusals: 1, 2, 3, 4, 5, 6. */
uint8_t selquorin_append(uint8_t *journals, size_t journals_length, uint8_t *rows,
                         size_t rows_length, uint8_t step);

/*
 * Draws the row book anew from the journal book, which is only read: whatever the row book held, it
 * is then the one of these journals, and the books are sound. Number 2 means that the journal book
 * lacks its form, 6 that its journals have more than 1,000 live states. Refusals: 1, 2, 6.
 */
uint8_t selquorin_rebuild(const uint8_t *journals, size_t journals_length, uint8_t *rows,
                          size_t rows_length);

/*
 * In how many journals a word is, by the row book alone. The word is its steps, one byte each, and
 * may have any length. On damaged books it gives 2 where its walk meets a byte that can't be right;
 * it doesn't check the book as a whole. Refusals: 1, 3, 2.
 * Packed: number + 256 * count. See selquorin_counted_number, selquorin_counted.
 */
uint32_t selquorin_table_count(const uint8_t *rows, size_t rows_length, const uint8_t *word,
                               size_t word_length);

/*
 * In how many journals the word of a word record is, by the journal book alone. Number 2 means that
 * the journal book lacks its form. Refusals: 1, 10, 2.
 * Packed: number + 256 * count. See selquorin_counted_number, selquorin_counted.
 */
uint32_t selquorin_journal_count(const uint8_t *journals, size_t journals_length,
                                 const uint8_t *word_record, size_t word_record_length);

/*
 * How many journals are open, by the journal book alone. Number 2 means that the journal book lacks
 * its form. Refusals: 1, 2.
 * Packed: number + 256 * journals. See selquorin_found_number, selquorin_found.
 */
uint32_t selquorin_journals(const uint8_t *journals, size_t journals_length);

/*
 * How many rows are live: one for each live state of the journals, from row 0 on. It needs sound
 * books, and looks at both whole. Refusals: 1, 2.
 * Packed: number + 256 * rows. See selquorin_found_number, selquorin_found.
 */
uint32_t selquorin_rows(const uint8_t *journals, size_t journals_length, const uint8_t *rows,
                        size_t rows_length);

/*
 * Checks both books. With number 2 it says where the first fault is. Book 1 is the journal book: a
 * record there lacks its form, or is open though the one before it isn't; the byte is 0. Book 2 is
 * the row book: that byte of that row isn't what the journals give. Book 2, record 1,000, byte 0:
 * the journals have more than 1,000 live states. Records count from 0. Without number 2 there is no
 * book, record or byte: they are 0. Refusals: 1, 2.
 * Packed: number + 2^8 * book + 2^16 * record + 2^32 * byte. See selquorin_checked_number,
 * selquorin_checked_book, selquorin_checked_record, selquorin_checked_byte.
 */
uint64_t selquorin_check(const uint8_t *journals, size_t journals_length, const uint8_t *rows,
                         size_t rows_length);

/*
 * Lists the words of up to `length` steps that are in at least `quorum` journals, in dictionary
 * order: a word comes before the longer ones that begin with it, and where two words part, the
 * lower step goes first. If `after` is 0 it starts with the first word, else behind the word of the
 * word record, which need not be listed itself. A word record of 16 bytes is lent in either case,
 * but read only if `after` isn't 0. It writes a word record for each word, until the output is full
 * or the list ends. The output has room for 1 to 4,096 whole records, and stays as it is behind the
 * last one written. To go on, call it again after the last word written. Refusals: 1, 2, 9, 8, 10.
 * Packed: number + 2^8 * more + 2^16 * written. See selquorin_listed_number, selquorin_listed_more,
 * selquorin_listed_written.
 */
uint64_t selquorin_list(const uint8_t *journals, size_t journals_length, const uint8_t *rows,
                        size_t rows_length, size_t quorum, size_t length, uint8_t after,
                        const uint8_t *word_record, size_t word_record_length, uint8_t *out,
                        size_t out_length);

/*
 * Whether a row record can be had: 0 where the row book has its size and the row number is below
 * 1,000. The record itself is rows + SELQUORIN_ROW_RECORD * row; see selquorin_row_record.
 * Refusals: 1, 13.
 */
uint8_t selquorin_row_record_number(const uint8_t *rows, size_t rows_length, size_t row);

/* What a number says, in words; a number that no call answers has a text too. */
static inline const char *selquorin_message(unsigned number) {
    static const char *const messages[] = {
        "done",
        "wrong size of a book, the list's output or a word record",
        "the books are damaged: check says where",
        "a step's code is above 15",
        "no journal is open that the step could be appended to",
        "the last journal is full: it has 200 steps",
        "no room: there would be more than 1,000 rows",
        "no room: 16 journals are open already",
        "the quorum is not between 1 and the number of journals",
        "the list's length is above 15",
        "the word is not well formed, or is longer than asked for",
        "a journal entry is broken",
        "the ask file has neither 0 nor 2 bytes",
        "there is no such row: rows have the numbers 0 to 999",
    };
    return number < sizeof messages / sizeof messages[0] ? messages[number] : "unknown number";
}

/* The parts of what selquorin_table_count and selquorin_journal_count answer. */

/* The number. */
static inline uint8_t selquorin_counted_number(uint32_t packed) {
    return (uint8_t)(packed & 255u);
}

/* In how many journals the word is; 0 with a refusal. */
static inline uint8_t selquorin_counted(uint32_t packed) {
    return (uint8_t)(packed >> 8 & 255u);
}

/* The parts of what selquorin_journals and selquorin_rows answer. */

/* The number. */
static inline uint8_t selquorin_found_number(uint32_t packed) {
    return (uint8_t)(packed & 255u);
}

/* How many journals are open, or how many rows are live; 0 with a refusal. */
static inline uint32_t selquorin_found(uint32_t packed) {
    return packed >> 8;
}

/* The parts of what selquorin_check answers. */

/* The number. */
static inline uint8_t selquorin_checked_number(uint64_t packed) {
    return (uint8_t)(packed & 255u);
}

/* 1 or 2 where that book is wrong, else 0. */
static inline uint8_t selquorin_checked_book(uint64_t packed) {
    return (uint8_t)(packed >> 8 & 255u);
}

/* The record that is wrong. */
static inline uint32_t selquorin_checked_record(uint64_t packed) {
    return (uint32_t)(packed >> 16 & 65535u);
}

/* The byte in the row that is wrong. */
static inline uint32_t selquorin_checked_byte(uint64_t packed) {
    return (uint32_t)(packed >> 32);
}

/* The parts of what selquorin_list answers. */

/* The number. */
static inline uint8_t selquorin_listed_number(uint64_t packed) {
    return (uint8_t)(packed & 255u);
}

/* 1 if a further word remains, else 0. */
static inline int selquorin_listed_more(uint64_t packed) {
    return (int)(packed >> 8 & 255u);
}

/* How many words were written. */
static inline size_t selquorin_listed_written(uint64_t packed) {
    return (size_t)(packed >> 16);
}

/* A row record: a part of the caller's row book itself, or NULL where its number isn't 0. */
static inline const uint8_t *selquorin_row_record(const uint8_t *rows, size_t rows_length,
                                                  size_t row) {
    if (selquorin_row_record_number(rows, rows_length, row) != SELQUORIN_DONE) {
        return NULL;
    }
    return rows + SELQUORIN_ROW_RECORD * row;
}

#ifdef __cplusplus
}
#endif

#endif
