/* Tevrolig: the verifier for STIR transcripts, the prover that it answers, and the four fields below them, called from
 * C.
 *
 * The functions stand in libtevrolig.a, which `tools/archive` writes to target/staticlib for x86-64 Linux. They
 * call memcpy and memset and nothing else from outside. They are proved against the written definition: on every input
 * each one ends, and what it answers and writes is what the definition says (docs/STATEMENTS.md).
 *
 * examples/verify.c is a program that uses them. A program is built with the first line, or with the second once
 * `tools/install` has put the header, the archive and tevrolig.pc below /usr/local (`tools/install PREFIX`: elsewhere).
 * The third is for a Rust program's Cargo.toml, whose interface is the folder rust/.
 *
 *   cc program.c -Iinclude target/staticlib/libtevrolig.a
 *   cc program.c $(pkg-config --cflags --libs tevrolig)
 *   tevrolig = { path = "../tevrolig/rust" }
 *
 * What a caller owes:
 *
 * - No pointer is null, and each is aligned as its type asks.
 * - A length counts the elements behind its pointer, bytes for uint8_t and words for uint32_t. Where it is 0, nothing is
 *   read or written there, and any pointer will do that is aligned and not null.
 * - What a call may write overlaps nothing else that it is given: `place` and `reads`, for one, are two variables.
 *
 * What a caller may rely on:
 *
 * - Everything is lent for the call alone. No pointer is kept, and inputs are only read.
 * - Nothing is allocated and no state is kept, so calls may run in several threads at once, over the same inputs too.
 * - `place`, `reads` and `value` are written on every return, whatever was there before. `word`, `element`, `out` and
 *   `turns` are written where the function answers 0; else nothing is written there, and they keep what they had.
 * - The stack that a call takes is bounded: below TEVROLIG_VERIFY_STACK bytes for tevrolig_verify and tevrolig_decide,
 *   below TEVROLIG_READ_STACK for tevrolig_read, likewise for prove, encode and the converters, in both editions, for the
 *   two functions of batches, for tevrolig_nearest and for those of the device, and below 1,024 for all others. This is
 *   measured, not proved.
 *
 * Words are unsigned 32-bit numbers. Numbers, places and positions count from 0.
 *
 * An element of field 0, 1 or 2 is one word below its p. One of field 3 is four words below p, which stand for
 * a + bX + cX^2 + dX^3 with X^4 = 11, a first. Coefficients, table entries, replies and all coins but indices are elements;
 * an index is one word in every field. Lengths and positions count words.
 *
 * There are two editions of a file, with a sheet of 12 words and one of 18. A file does not say of which it is: the
 * caller does, by the function that is called. Those without an edition in their name are of edition 1. A batch, with
 * several polynomials in one run, is a kind of file of its own: it has a sheet of edition 1, and is verified and proved by
 * tevrolig_verify_batch and tevrolig_prove_batch alone.
 *
 * THE EDITION, AND EACH KIND OF FILE THAT A REQUEST ADDS, IS FIXED OUTSIDE THE FILE: NEVER TRY ONE AND THEN THE OTHER. One
 * file may be accepted as both editions with two meanings, that is, with another table 0, another fold coin and another
 * final polynomial (crates/check_files/data/both-editions), and one file as a plain file and as a batch
 * (examples/both-kinds).
 */
#ifndef TEVROLIG_H
#define TEVROLIG_H

#include <stddef.h>
#include <stdint.h>

#ifdef __cplusplus
extern "C" {
#endif

/* The version; rust/Cargo.toml and tevrolig.pc have the same, which tools/try-install checks. Its second number is that of
 * the interface: one more for each change to what a function answers or writes (CHANGELOG.md says what to change). */
#define TEVROLIG_VERSION "0.10.0"

/* Answers the interface's number. Every object file that this header is compiled into refers to it, whatever else it calls,
 * so that it does not link with an archive of another interface: the linker then names the function that it misses. */
uint32_t tevrolig_interface_10(void);

#ifdef __has_attribute
#if __has_attribute(retain)
#define TEVROLIG_RETAIN __attribute__((retain)) /* past a linker that leaves out what nothing refers to */
#endif
#endif
#ifndef TEVROLIG_RETAIN
#define TEVROLIG_RETAIN
#endif
static uint32_t (*const tevrolig_interface)(void) __attribute__((used)) TEVROLIG_RETAIN = tevrolig_interface_10;
#undef TEVROLIG_RETAIN

/* A file is blocks of 512 bytes: 127 words of the stream, each least significant byte first, and a check word. */
#define TEVROLIG_BLOCK_BYTES 512
#define TEVROLIG_BLOCK_WORDS 127

/* No file with more blocks is accepted, and no file that is proved or converted needs more; of batches so many more. */
#define TEVROLIG_MAX_BLOCKS 67
#define TEVROLIG_MAX_BATCH_BLOCKS 99

/* No batch has more tables. */
#define TEVROLIG_MAX_TABLES 8

/* No table has more words, and so no encoding: the largest n0 of the fields 0 to 2, and four times that of field 3. */
#define TEVROLIG_MAX_TABLE 4096

/* No polynomial that is found as the nearest, with the points where it differs, takes more words. */
#define TEVROLIG_MAX_NEAREST 3073

/* The words of a device's state, and the bytes of its buffer. */
#define TEVROLIG_DEVICE_WORDS 1160
#define TEVROLIG_DEVICE_BUFFER 65536

/* The sheet:
 *
 *   word   name         rule
 *   0      the field    0: p = 17; 1: p = 65537; 2: p = 2013265921; 3: four words over p = 2013265921
 *   1      n0           a power of two from 4 to 4096, or to 1024 in field 3, that divides p - 1
 *   2      d0           a power of two from 2 to n0/2
 *   3      k            a power of two from 2 to 16, at most d0
 *   4      M            0 to 5, with k^(M+1) at most d0
 *   5      s            1 or 2
 *   6..11  t_0 to t_5   t_i is 1 to 48 for i up to M, with t_i + s < d0/k^(i+1) for i below M; past t_M zero
 */
#define TEVROLIG_SHEET_WORDS 12

/* The sheet of edition 2 has a folding number for each round. Words 0 to 2, 5 and 6 to 11 are as above, with d_(i+1) for
 * d0/k^(i+1), where d_i = d0/(k_0*..*k_(i-1)); and
 *
 *   word   name         rule
 *   3      k_0          a power of two from 2 to 16, at most d0
 *   4      M            0 to 5
 *   12..16 k_1 to k_5   k_i is as k_0 for i up to M, with k_0*..*k_i at most d0; past k_M zero
 *   17     the edition  2
 *
 * Its words are tested in the order 0 to 5, 12 to 17, 6 to 11. */
#define TEVROLIG_SHEET_WORDS_2 18

/* Bytes of stack below which a call stays. */
#define TEVROLIG_VERIFY_STACK 98304
#define TEVROLIG_READ_STACK 49152
#define TEVROLIG_PROVE_STACK 98304
#define TEVROLIG_ENCODE_STACK 49152
#define TEVROLIG_CONVERT_STACK 49152
#define TEVROLIG_VERIFY_BATCH_STACK 196608
#define TEVROLIG_PROVE_BATCH_STACK 131072
#define TEVROLIG_NEAREST_STACK 131072
#define TEVROLIG_DEVICE_STACK 131072

/* What the functions answer: 0, or why not. The place that belongs to each number stands at the function. */
enum {
    TEVROLIG_ACCEPTED = 0,   /* verify, read, decide: the file is accepted */
    TEVROLIG_DONE = 0,       /* all others: what was asked for is written */
    TEVROLIG_LENGTH = 1,     /* the file is empty, or its length is no multiple of 512 bytes */
    TEVROLIG_CHECK = 2,      /* a block's check word is wrong */
    TEVROLIG_SHEET = 3,      /* a sheet word breaks its rule */
    TEVROLIG_BLOCKS = 4,     /* the sheet needs another number of blocks */
    TEVROLIG_RANGE = 5,      /* a word after the sheet is out of range: not below p, or no index that is due */
    TEVROLIG_FILL = 6,       /* a word after the end of the stream is not zero */
    TEVROLIG_OUT_COIN = 7,   /* an out coin of round i lies in domain i */
    TEVROLIG_CLASH = 8,      /* two equal points of a round have different values */
    TEVROLIG_FINAL = 9,      /* the final polynomial differs from the fold at a final index's point */
    TEVROLIG_COUNT = 10,     /* the sheet, the coefficients, the coins or the table are too few or too many */
    TEVROLIG_OUTPUT = 11,    /* the output is too short */
    TEVROLIG_FOLDS = 13,     /* the folding numbers differ, so that there is no such file of edition 1 */
    TEVROLIG_EQUAL_OUT = 14, /* two out coins of a round are equal */
    TEVROLIG_BATCH = 15,     /* the number of a batch's tables breaks its rule, or one of their bounds */
    TEVROLIG_DEVICE = 16,    /* the device refuses the call, or a length is another */
    TEVROLIG_NOT_NEAR = 19,  /* no polynomial is so near to the table */

    /* of word and the field operations; no refusals of a file or an input, and so apart from those */
    TEVROLIG_NO_FIELD = 100,   /* the number names no field of one word */
    TEVROLIG_NO_INVERSE = 101, /* 0 has no inverse */
    TEVROLIG_NO_WORD = 102     /* the stream has no word of that number */
};

/* Verifies a file of any length and content. Answers 0 for accepted, else the number of the first test that fails, in
 * this order:
 *
 *   number   place
 *   0        0
 *   1        0
 *   2        the first block with a wrong check
 *   3        the first sheet word that breaks its rule, given those before
 *   4        the number of blocks that the sheet needs
 *   5        the number of the first word out of range, as tevrolig_word counts
 *   6        the number of the first such word that is not zero
 *   7        the word number of the first such coin, which is that of its first word
 *   14       that of the second coin in the first such round, likewise
 *   8        the first such round, from 1 to M
 *   9        the first such position in the list of final indices
 *
 * `reads` is the count of table places opened, a place being table number and point number. A shift or final coin over
 * domain i leads to k places of table i, and one place is opened once however many coins lead to it, so that it is k for
 * each different index over each domain: 0 for the numbers 1 to 7 and 14; for 8 of all shift coins up to those of that
 * round; for 9 of all shift coins, and of the final coins up to and with the failing one; of all coins for an accepted
 * file, at most k*(t_0 + .. + t_M). */
uint32_t tevrolig_verify(const uint8_t *file, size_t length, uint64_t *place, uint64_t *reads);

/* Verifies a file of edition 2 likewise. Place 3 is the first in the order in which the sheet's words are tested, and a
 * shift or final coin over domain i leads to k_i places: at most t_0*k_0 + .. + t_M*k_M for an accepted file. */
uint32_t tevrolig_verify_2(const uint8_t *file, size_t length, uint64_t *place, uint64_t *reads);

/* Verify in two steps, for a caller who receives a file long before he may decide: read, and where it accepts, decide. Both
 * in turn say what tevrolig_verify says. Nothing is handed over from one to the other: both take the whole file, and
 * deciding reads it again. So a reading that was skipped, or a file that changed since, lets nothing through.
 *
 * tevrolig_read makes the tests 1 to 6 alone. It answers 0 for accepted, with place 0, else the number of the first of
 * them that fails, with its place as above. It uses no table word, so there are no reads.
 *
 * tevrolig_decide answers and writes of any file what tevrolig_verify does. After an accepted reading of the same bytes it
 * accepts, or refuses with 7, 14, 8 or 9; a file that fails reading gets reading's number and place again, with 0 reads. */
uint32_t tevrolig_read(const uint8_t *file, size_t length, uint64_t *place);
uint32_t tevrolig_decide(const uint8_t *file, size_t length, uint64_t *place, uint64_t *reads);

/* The same two steps for a file of edition 2, and tevrolig_verify_2. */
uint32_t tevrolig_read_2(const uint8_t *file, size_t length, uint64_t *place);
uint32_t tevrolig_decide_2(const uint8_t *file, size_t length, uint64_t *place, uint64_t *reads);

/* Shows the word of this number in a file's stream, of either edition. The sheet has the words 0 to 11, or 0 to 17, and
 * block checks are not counted. Answers 0 for done, and `word` is the word; or TEVROLIG_NO_WORD where the file's whole
 * blocks hold no word of that number, and writes nothing. */
uint32_t tevrolig_word(const uint8_t *file, size_t length, uint64_t number, uint32_t *word);

/* Shows the sheet that a file holds, verified or not: writes its words 0 to 11 to the front of the output, as
 * tevrolig_word shows them one by one. Answers 0 for done, and the words after them are as before. Else no word of the
 * output is written: 1 where the file has less than one block, 11 where the output has less than TEVROLIG_SHEET_WORDS
 * words. */
uint32_t tevrolig_sheet_of(const uint8_t *file, size_t length, uint32_t *output, size_t output_length);

/* Writes the honest prover's file for d0 coefficients, lowest first, and a full list of coins, in the order in which the
 * stream has them: fold coin 0; for each round i from 1 to M its s out coins, combination coin, fold coin i and t_(i-1)
 * shift indices; at last t_M final indices. In field 3 there are 4*d0 words of coefficients, and a coin that is no index
 * has four. Answers 0 for done: `value` is the number of blocks, which stand at the front
 * of the output, and the bytes after them are as before. Else it answers the number of the first test that fails, and no
 * byte of the output is written:
 *
 *   number   value
 *   10       0 where the sheet has not 12 words
 *   3        the first sheet word that breaks its rule, given those before
 *   10       1 where the coefficients have not as many words as the sheet makes due; 2 where the coins have not
 *   5        the position of the first word out of range, in the coefficients followed by the coins
 *   7        the position of the first such coin's first word, in the coins alone
 *   14       that of the second coin in the first such round, likewise
 *   11       the number of blocks needed
 *
 * So an output of length 0 asks for the size, and TEVROLIG_MAX_BLOCKS blocks are enough for every input. */
uint32_t tevrolig_prove(const uint32_t *sheet, size_t sheet_length, const uint32_t *coefficients,
                        size_t coefficients_length, const uint32_t *coins, size_t coins_length, uint8_t *output,
                        size_t output_length, uint64_t *value);

/* Writes the honest prover's file of edition 2 likewise; the sheet has 18 words. */
uint32_t tevrolig_prove_2(const uint32_t *sheet, size_t sheet_length, const uint32_t *coefficients,
                          size_t coefficients_length, const uint32_t *coins, size_t coins_length, uint8_t *output,
                          size_t output_length, uint64_t *value);

/* A batch is the run of several polynomials, over one sheet of 12 words: from 1 to TEVROLIG_MAX_TABLES tables over domain
 * 0, whose number times n0 is at most 8192, or 2048 in field 3. Table m, from 1 on, has a bound b_m from 1 to d0. In the
 * stream come, after the sheet, their number, the bounds, the tables and one coin r; then all from fold coin 0 on as in a
 * plain file. The first function, which a plain file has as table 0, is the sum over all tables of table m times
 * r^(m - 1 + e_1 + .. + e_(m-1)) and times 1 + (rx) + .. + (rx)^e_m at the point x, where e_m = d0 - b_m.
 *
 * Verifies a batch of any length and content. Answers and writes as tevrolig_verify does, and 15 after 3 and before 4:
 *
 *   number   place
 *   15       0 where the number of tables breaks its rule; m where b_m is the first bound that breaks it
 *
 * The stream that numbers and places count is the batch's own. A coin over domain 0 leads to k places in each table: each
 * is opened once, so that there are k times the number of tables for each different index over domain 0, and k for each
 * over a later one. A file of more than TEVROLIG_MAX_BATCH_BLOCKS blocks is never accepted. */
uint32_t tevrolig_verify_batch(const uint8_t *file, size_t length, uint64_t *place, uint64_t *reads);

/* Writes the honest prover's batch for the bounds of its tables, their coefficients, table by table and each lowest first,
 * of table m b_m elements, and a full list of coins: r, then as tevrolig_prove takes them. The tables are as many as the
 * bounds. At most TEVROLIG_MAX_TABLE words of coefficients are due. Answers and writes as tevrolig_prove does, and 15
 * after 3 and before 10 with 1; no byte of the output is written where it refuses:
 *
 *   number   value
 *   15       0 where the number of bounds breaks its rule; m where b_m is the first that breaks it
 *   10       1 where the coefficients have not as many words as the bounds make due; 2 where the coins have not as many as
 *            the sheet does, with those of r
 *
 * Positions in the coins count r too. TEVROLIG_MAX_BATCH_BLOCKS blocks are enough for every input. */
uint32_t tevrolig_prove_batch(const uint32_t *sheet, size_t sheet_length, const uint32_t *bounds, size_t bounds_length,
                              const uint32_t *coefficients, size_t coefficients_length, const uint32_t *coins,
                              size_t coins_length, uint8_t *output, size_t output_length, uint64_t *value);

/* Writes a file of edition 1 as one of edition 2, whose folding numbers are all k. The words after the sheet stay, so that
 * a word's number is 6 higher, and the block checks are new. Answers 0 for done: `value` is the number of blocks, which
 * stand at the front of the output, and the bytes after them are as before. Else it answers the number of the first test
 * that fails, and no byte of the output is written: 1 to 6 as tevrolig_verify refuses the file, with the place in `value`,
 * then 11 with the number of blocks needed. What verify would say from 7 on is not asked. */
uint32_t tevrolig_to_edition_2(const uint8_t *file, size_t length, uint8_t *output, size_t output_length,
                               uint64_t *value);

/* Writes a file of edition 2 whose folding numbers are all equal as one of edition 1, likewise: 1 to 6 are as
 * tevrolig_verify_2 refuses the file; then comes 13, with the first i for which k_i is not k_0; then 11. */
uint32_t tevrolig_to_edition_1(const uint8_t *file, size_t length, uint8_t *output, size_t output_length,
                               uint64_t *value);

/* Writes table 0 alone, the values of the polynomial at the n0 points of domain 0. Answers 0 for done: `value` is the
 * number of words written, n0 or in field 3 4*n0, and the words after them are as before. Else it answers the number of
 * the first test that fails, and no word of the output is written: 10 with 0, 3, 10 with 1 and 5 as in tevrolig_prove,
 * then 11 with the number of words needed. */
uint32_t tevrolig_encode(const uint32_t *sheet, size_t sheet_length, const uint32_t *coefficients,
                         size_t coefficients_length, uint32_t *output, size_t output_length, uint64_t *value);

/* Finds the polynomial of degree below d0 that differs from table 0 in at most (n0 - d0)/2 points, of which there is at
 * most one. The table has n0 entries, one for each point of domain 0. Answers 0 for done: at the front of the output stand
 * the d0 coefficients, lowest first, then the count of the points where they differ from the table, then the numbers of
 * these points in rising order. In field 3 an entry and a coefficient have four words, the count and a number one, and two
 * entries differ where any of their words do. `value` is the number of words written, and the words after them are as
 * before. Else it answers the number of the first test that fails, and no word of the output is written:
 *
 *   number   value
 *   10       0 where the sheet has not 12 words
 *   3        the first sheet word that breaks its rule, given those before
 *   10       1 where the table has not as many words as the sheet makes due, n0 or in field 3 4*n0
 *   5        the position in the table of the first word out of range
 *   11       the most words that may be written, which the output must have room for also where fewer would be: those of
 *            d0 coefficients and 1 + (n0 - d0)/2
 *   19       0 where no polynomial of degree below d0 differs from the table in so few points
 *
 * So an output of length 0 asks for the size, and TEVROLIG_MAX_NEAREST words are enough for every input. */
uint32_t tevrolig_nearest(const uint32_t *sheet, size_t sheet_length, const uint32_t *table, size_t table_length,
                          uint32_t *output, size_t output_length, uint64_t *value);

/* A device: verify of edition 1 behind registers of a byte each, whose state of TEVROLIG_DEVICE_WORDS words and whose
 * buffer of TEVROLIG_DEVICE_BUFFER bytes are lent to each call. Here are its registers and its start alone: the call that
 * goes on with a run, coin by coin, is not part of this version.
 *
 *   register   written                                       read
 *   0          1 starts: the bytes taken are read; 2 clears  0
 *   1                                                        bit 0: busy; bit 1: done
 *   2          bit 0: interrupt enable                       the same
 *   3          a 1 in bit 0 clears the interrupt flag        the flag, which done sets
 *   4                                                        the number of the refusal, 0 where there is none
 *   5 to 8                                                   its place, low byte first
 *   9          a byte of the file                            0
 *
 * Fresh: nothing taken, neither busy nor done. Answers 0; or TEVROLIG_DEVICE where the state has another length, and the
 * words are as before. */
uint32_t tevrolig_device_fresh(uint32_t *state, size_t state_length);

/* Writes a byte to a register. Answers 0, with 0 in `place`; or TEVROLIG_DEVICE, and both state and buffer are as before:
 * 2 in `place` where the state or the buffer has another length, 0 for a byte of the file or a start while busy, 1 for a
 * byte of the file where the buffer is full. */
uint32_t tevrolig_device_write(uint32_t *state, size_t state_length, uint8_t register_number, uint8_t value,
                               uint8_t *buffer, size_t buffer_length, uint64_t *place);

/* A register read, and the interrupt line, 1 where both the flag and the enable are set. 0 where the state has another
 * length. */
uint8_t tevrolig_device_read(const uint32_t *state, size_t state_length, uint8_t register_number);
uint8_t tevrolig_device_line(const uint32_t *state, size_t state_length);

/* The operations of a field of one word, given by its number as in word 0 of the sheet: 0, 1 or 2. They take a and b
 * modulo p first, so any words will do; an exponent is taken as it is. 0 to the power 0 is 1. Each answers 0 for done, and
 * `element` is the element, a word below p; or TEVROLIG_NO_FIELD for any other number, and writes nothing. */
uint32_t tevrolig_sum(uint32_t field, uint32_t a, uint32_t b, uint32_t *element);
uint32_t tevrolig_difference(uint32_t field, uint32_t a, uint32_t b, uint32_t *element);
uint32_t tevrolig_product(uint32_t field, uint32_t a, uint32_t b, uint32_t *element);
uint32_t tevrolig_power(uint32_t field, uint32_t a, uint32_t exponent, uint32_t *element);

/* The inverse likewise, except that there is none where a is 0 modulo p: it then answers TEVROLIG_NO_INVERSE, and writes
 * nothing. */
uint32_t tevrolig_inverse(uint32_t field, uint32_t a, uint32_t *element);

/* The power of tevrolig_power, and the turns that its loop made: as many as the exponent has binary digits, none for 0.
 * Where the number names no field of one word, neither is written. */
uint32_t tevrolig_power_turns(uint32_t field, uint32_t a, uint32_t exponent, uint32_t *element, uint32_t *turns);

/* The operations of field 3, on elements of four words. They take each word modulo p first, so any words will do; an
 * exponent is one word, taken as it is. Each answers 0 for done, and `out` has the four words of the element, each below
 * p. There is no inverse exactly where all four words of a are 0 modulo p: TEVROLIG_NO_INVERSE, and nothing is written. */
uint32_t tevrolig_sum_3(const uint32_t a[4], const uint32_t b[4], uint32_t out[4]);
uint32_t tevrolig_difference_3(const uint32_t a[4], const uint32_t b[4], uint32_t out[4]);
uint32_t tevrolig_product_3(const uint32_t a[4], const uint32_t b[4], uint32_t out[4]);
uint32_t tevrolig_power_3(const uint32_t a[4], uint32_t exponent, uint32_t out[4]);
uint32_t tevrolig_power_turns_3(const uint32_t a[4], uint32_t exponent, uint32_t out[4], uint32_t *turns);
uint32_t tevrolig_inverse_3(const uint32_t a[4], uint32_t out[4]);

#ifdef __cplusplus
}
#endif

#endif
