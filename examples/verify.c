/* Verifies the file named on the command line, or standard input, and says what the verdict means:
 * `verify [-r | -d] [-2] [FILE]`, where -r is for the first of verify's two steps, reading, -d for the second, deciding, and
 * -2 for a file of edition 2; or `verify -b [FILE]` for a batch. The exit status is 0 for accepted, 1 for refused, 2 where
 * the file cannot be read.
 *
 * To build it, at the top of the repository, after `tools/archive`; or anywhere, after `tools/install`:
 *
 *   cc examples/verify.c -Iinclude target/staticlib/libtevrolig.a -o verify
 *   cc verify.c $(pkg-config --cflags --libs tevrolig) -o verify */
#include <inttypes.h>
#include <stdio.h>
#include <string.h>

#include "tevrolig.h"

/* A file is read so far and no further, as the program `check` does it: no accepted file is so long. */
#define MAX_BYTES 65536

/* Edition 1 has the first twelve. */
static const char *const SHEET_WORD[TEVROLIG_SHEET_WORDS_2] = {
    "the field", "n0", "d0", "k", "M", "s", "t_0", "t_1", "t_2", "t_3", "t_4", "t_5",
    "k_1", "k_2", "k_3", "k_4", "k_5", "the edition"};

/* One sentence on a refusal. */
static void explain(const uint8_t *file, size_t length, uint32_t number, uint64_t place)
{
    /* For the numbers 5, 6, 7 and 14 the place is a word's number, and the file has that word. For others it may have none,
     * and then nothing is written. What 15 is about stands after the sheet: the number of tables, and then the bounds. */
    uint32_t word = 0;
    tevrolig_word(file, length, number == TEVROLIG_BATCH ? TEVROLIG_SHEET_WORDS + place : place, &word);

    switch (number) {
    case TEVROLIG_LENGTH:
        printf("The file has %zu bytes, and not one or more blocks of %d.\n", length, TEVROLIG_BLOCK_BYTES);
        break;
    case TEVROLIG_CHECK:
        printf("Block %" PRIu64 " has a wrong check.\n", place);
        break;
    case TEVROLIG_SHEET:
        printf("Word %" PRIu64 " of the sheet (%s) breaks its rule.\n", place, SHEET_WORD[place]);
        break;
    case TEVROLIG_BATCH:
        if (place == 0)
            printf("The number of tables is %" PRIu32 ", not from 1 to %d, or too large for n0.\n", word, TEVROLIG_MAX_TABLES);
        else
            printf("The bound of table %" PRIu64 " is %" PRIu32 ", not from 1 to d0.\n", place, word);
        break;
    case TEVROLIG_BLOCKS:
        printf("The sheet needs %" PRIu64 " blocks, and the file has %zu.\n", place, length / TEVROLIG_BLOCK_BYTES);
        break;
    case TEVROLIG_RANGE:
        printf("Word %" PRIu64 " of the stream is %" PRIu32 ", which is out of range.\n", place, word);
        break;
    case TEVROLIG_FILL:
        printf("Word %" PRIu64 " comes after the stream's end and is %" PRIu32 ", not 0.\n", place, word);
        break;
    case TEVROLIG_OUT_COIN:
        printf("Word %" PRIu64 " of the stream is %" PRIu32 ", an out coin inside its round's domain.\n", place, word);
        break;
    case TEVROLIG_EQUAL_OUT:
        printf("Word %" PRIu64 " of the stream is %" PRIu32 ", as is the out coin before it in its round.\n", place, word);
        break;
    case TEVROLIG_CLASH:
        printf("In round %" PRIu64 " two equal points have different values.\n", place);
        break;
    case TEVROLIG_FINAL:
        printf("The final polynomial differs from the fold at position %" PRIu64 " of the final indices.\n", place);
        break;
    }
}

/* What is asked of a file: verify, or one of its steps; or verify as a batch. */
enum step { VERIFY, READ, DECIDE, BATCH };

/* The answer to it, in the edition given; reading has no reads. */
static uint32_t answer(enum step step, int edition, const uint8_t *file, size_t length, uint64_t *place, uint64_t *reads)
{
    switch (step) {
    case READ:
        *reads = 0;
        return edition == 2 ? tevrolig_read_2(file, length, place) : tevrolig_read(file, length, place);
    case BATCH:
        return tevrolig_verify_batch(file, length, place, reads);
    case DECIDE:
        return edition == 2 ? tevrolig_decide_2(file, length, place, reads) : tevrolig_decide(file, length, place, reads);
    default:
        return edition == 2 ? tevrolig_verify_2(file, length, place, reads) : tevrolig_verify(file, length, place, reads);
    }
}

int main(int argc, char **argv)
{
    enum step step = VERIFY;
    int edition = 1, batch = 0, known = 1, next = 1;
    for (; next < argc && argv[next][0] == '-'; next++) {
        if (strcmp(argv[next], "-r") == 0)
            step = READ;
        else if (strcmp(argv[next], "-d") == 0)
            step = DECIDE;
        else if (strcmp(argv[next], "-2") == 0)
            edition = 2;
        else if (strcmp(argv[next], "-b") == 0)
            batch = 1;
        else
            known = 0;
    }
    /* Of a batch there are neither steps nor editions. */
    if (!known || (batch && next > 2)) {
        fprintf(stderr, "usage: verify [-r | -d] [-2] [FILE], or verify -b [FILE]\n");
        return 2;
    }
    const char *name = next < argc ? argv[next] : NULL;
    FILE *input = name != NULL ? fopen(name, "rb") : stdin;
    if (input == NULL) {
        perror(name);
        return 2;
    }
    uint8_t file[MAX_BYTES];
    size_t length = fread(file, 1, sizeof file, input);
    if (ferror(input)) {
        perror(name != NULL ? name : "standard input");
        return 2;
    }
    fclose(input);

    uint64_t place, reads;
    uint32_t number = answer(batch ? BATCH : step, edition, file, length, &place, &reads);
    const char *outcome = number == TEVROLIG_ACCEPTED ? "accepted" : "refused";
    /* As `check` prints it; the reads are the different table places opened. */
    printf("%s %" PRIu32 " %" PRIu64 " %" PRIu64 "\n", outcome, number, place, reads);
    if (number == TEVROLIG_ACCEPTED)
        return 0;
    explain(file, length, number, place);
    return 1;
}
