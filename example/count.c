/*
 * The library from C: two journals, how many rows they have, the count of a word, the words that
 * both journals hold, and a refusal in words.
 *
 * At the root of the repository:
 *
 *     bash rust/archive.sh
 *     cc -Wall -Wextra -std=c99 -Iinclude example/count.c target/staticlib/libselquorin.a -o target/count
 *     target/count
 */
#include <stdio.h>
#include <string.h>

#include "selquorin.h"

static uint8_t journals[SELQUORIN_JOURNAL_BOOK];
static uint8_t rows[SELQUORIN_ROW_BOOK];

/* Each function below answers the first number that isn't 0, or 0. */

/* Opens a journal and appends its steps. */
static uint8_t add(const uint8_t *steps, size_t length) {
    uint8_t number = selquorin_open(journals, sizeof journals, rows, sizeof rows);
    for (size_t i = 0; i < length && number == SELQUORIN_DONE; i++) {
        number = selquorin_append(journals, sizeof journals, rows, sizeof rows, steps[i]);
    }
    return number;
}

/* Clears the books and adds two journals. */
static uint8_t add_both(void) {
    static const uint8_t first[] = {1, 2, 1};
    static const uint8_t second[] = {1, 1, 2};
    uint8_t number = selquorin_clear(journals, sizeof journals, rows, sizeof rows);
    if (number == SELQUORIN_DONE) {
        number = add(first, sizeof first);
    }
    if (number == SELQUORIN_DONE) {
        number = add(second, sizeof second);
    }
    return number;
}

/* Prints how many journals and rows there are. */
static uint8_t print_sizes(void) {
    uint32_t open = selquorin_journals(journals, sizeof journals);
    if (selquorin_found_number(open) != SELQUORIN_DONE) {
        return selquorin_found_number(open);
    }
    uint32_t live = selquorin_rows(journals, sizeof journals, rows, sizeof rows);
    if (selquorin_found_number(live) == SELQUORIN_DONE) {
        printf("%u journals, %u rows\n", (unsigned)selquorin_found(open),
               (unsigned)selquorin_found(live));
    }
    return selquorin_found_number(live);
}

/* Prints in how many journals the word 1 2 is. */
static uint8_t print_count(void) {
    static const uint8_t word[] = {1, 2};
    uint32_t counted = selquorin_table_count(rows, sizeof rows, word, sizeof word);
    if (selquorin_counted_number(counted) == SELQUORIN_DONE) {
        printf("word 1 2: in %u journals\n", (unsigned)selquorin_counted(counted));
    }
    return selquorin_counted_number(counted);
}

/* Prints the word of a word record. */
static void print_word(const uint8_t *record) {
    printf("length %u:", (unsigned)record[0]);
    for (size_t i = 1; i <= record[0]; i++) {
        printf(" %u", (unsigned)record[i]);
    }
    printf("\n");
}

/* Prints the words of up to 3 steps that are in as many journals as the quorum says. */
static uint8_t print_words(size_t quorum) {
    /* The word record that the list goes on after: at first the empty word, which isn't read. */
    uint8_t last[SELQUORIN_WORD_RECORD] = {0};
    /* Room for two words, to show how the list is fetched in parts. */
    uint8_t out[2 * SELQUORIN_WORD_RECORD];
    uint8_t after = 0;
    uint64_t listed;
    do {
        listed = selquorin_list(journals, sizeof journals, rows, sizeof rows, quorum, 3, after,
                                last, sizeof last, out, sizeof out);
        for (size_t i = 0; i < selquorin_listed_written(listed); i++) {
            memcpy(last, out + SELQUORIN_WORD_RECORD * i, sizeof last);
            print_word(last);
        }
        after = 1;
    } while (selquorin_listed_more(listed));
    return selquorin_listed_number(listed);
}

int main(void) {
    uint8_t number = add_both();
    if (number == SELQUORIN_DONE) {
        number = print_sizes();
    }
    if (number == SELQUORIN_DONE) {
        number = print_count();
    }
    for (size_t quorum = 2; quorum <= 3 && number == SELQUORIN_DONE; quorum++) {
        printf("words of up to 3 steps in %u journals:\n", (unsigned)quorum);
        number = print_words(quorum);
    }
    /* There are only two journals, so that the list by quorum 3 was refused. */
    printf("%u: %s\n", (unsigned)number, selquorin_message(number));
    return number == SELQUORIN_WRONG_QUORUM ? 0 : 1;
}
