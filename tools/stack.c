/* Measures how much stack calls take, of verify, its two steps and the converter, in both editions, of verify as a batch, and of tevrolig_word and tevrolig_sheet_of,
 * on each file named and on what is proved here; of prove, in both editions and of batches, and tevrolig_encode on the largest inputs; of tevrolig_nearest on tables of
 * every n0 and d0; and of the field operations. It fails where one is not below the header's figure. A call runs on a stack of its own, painted before, and the deepest byte that lost its paint is looked for. */
#include <stdio.h>
#include <stdlib.h>
#include <string.h>
#include <ucontext.h>

#include "tevrolig.h"

enum { MAX_BYTES = 65536, MAX_COINS = 1024, STACK = 1 << 22, PAINT = 0xA5 };

enum { SHEET_COUNT = 6 };

/* Of edition 2: the longest file of all, the one with the largest k, and one whose folding numbers differ; then the same with elements of four words. The words 0 to 11
 * are a sheet of edition 1 too where the folding numbers are equal. */
static const uint32_t SHEETS[SHEET_COUNT][TEVROLIG_SHEET_WORDS_2] = {
    {2, 4096, 2048, 2, 5, 2, 48, 48, 48, 48, 48, 48, 2, 2, 2, 2, 2, 2},
    {2, 4096, 2048, 16, 1, 2, 48, 48, 0, 0, 0, 0, 16, 0, 0, 0, 0, 2},
    {2, 4096, 2048, 16, 2, 2, 48, 29, 48, 0, 0, 0, 4, 2, 0, 0, 0, 2},
    {3, 1024, 512, 2, 5, 2, 48, 48, 48, 29, 13, 48, 2, 2, 2, 2, 2, 2},
    {3, 1024, 512, 16, 1, 2, 29, 48, 0, 0, 0, 0, 16, 0, 0, 0, 0, 2},
    {3, 1024, 512, 16, 3, 1, 30, 6, 2, 48, 0, 0, 4, 2, 2, 0, 0, 2},
};

/* One that has room for the most tables. */
static const uint32_t MANY_TABLES[TEVROLIG_SHEET_WORDS_2] = {2, 1024, 512, 4, 2, 2, 20, 9, 12, 0, 0, 0, 4, 4, 0, 0, 0, 2};

static uint8_t file[MAX_BYTES], output[MAX_BYTES];
static size_t length;
static uint32_t device[TEVROLIG_DEVICE_WORDS];
static uint8_t device_buffer[TEVROLIG_DEVICE_BUFFER];
static const uint32_t *sheet;
static uint32_t coefficients[TEVROLIG_MAX_TABLE], coins[MAX_COINS], table[TEVROLIG_MAX_TABLE];
static size_t coin_count;
/* Of a batch. */
static uint32_t bounds[TEVROLIG_MAX_TABLES];
static size_t table_count;

static _Alignas(64) uint8_t stack[STACK];
static ucontext_t here, there;
static uint32_t answer;

static void verify(void)
{
    uint64_t place, reads;
    answer = tevrolig_verify(file, length, &place, &reads);
}

static void verify_2(void)
{
    uint64_t place, reads;
    answer = tevrolig_verify_2(file, length, &place, &reads);
}

static void decide(void)
{
    uint64_t place, reads;
    answer = tevrolig_decide(file, length, &place, &reads);
}

static void decide_2(void)
{
    uint64_t place, reads;
    answer = tevrolig_decide_2(file, length, &place, &reads);
}

static void device_fresh(void)
{
    answer = tevrolig_device_fresh(device, TEVROLIG_DEVICE_WORDS);
}

/* A start, of the file: word 6 of a state is the count of the bytes taken. */
static void device_start(void)
{
    uint64_t place;
    answer = tevrolig_device_write(device, TEVROLIG_DEVICE_WORDS, 0, 1, device_buffer, sizeof device_buffer, &place);
}

static void device_read(void)
{
    answer = tevrolig_device_read(device, TEVROLIG_DEVICE_WORDS, 1) + tevrolig_device_line(device, TEVROLIG_DEVICE_WORDS);
}

static void read_file(void)
{
    uint64_t place;
    answer = tevrolig_read(file, length, &place);
}

static void read_file_2(void)
{
    uint64_t place;
    answer = tevrolig_read_2(file, length, &place);
}

/* Words of an element, and of the coefficients. */
static uint32_t width(void)
{
    return sheet[0] == 3 ? 4 : 1;
}

static size_t coefficient_words(void)
{
    return (size_t)width() * sheet[2];
}

static void prove(void)
{
    uint64_t blocks;
    answer = tevrolig_prove(sheet, TEVROLIG_SHEET_WORDS, coefficients, coefficient_words(), coins, coin_count, file, sizeof file, &blocks);
    length = blocks * TEVROLIG_BLOCK_BYTES;
}

static void prove_2(void)
{
    uint64_t blocks;
    answer = tevrolig_prove_2(sheet, TEVROLIG_SHEET_WORDS_2, coefficients, coefficient_words(), coins, coin_count, file, sizeof file, &blocks);
    length = blocks * TEVROLIG_BLOCK_BYTES;
}

static void verify_batch(void)
{
    uint64_t place, reads;
    answer = tevrolig_verify_batch(file, length, &place, &reads);
}

static void prove_batch(void)
{
    uint64_t blocks;
    size_t due = 0;
    for (size_t m = 0; m < table_count; m++)
        due += (size_t)width() * bounds[m];
    answer = tevrolig_prove_batch(sheet, TEVROLIG_SHEET_WORDS, bounds, table_count, coefficients, due, coins, coin_count, file, sizeof file, &blocks);
    length = blocks * TEVROLIG_BLOCK_BYTES;
}

static void to_edition_2(void)
{
    uint64_t blocks;
    answer = tevrolig_to_edition_2(file, length, output, sizeof output, &blocks);
}

static void to_edition_1(void)
{
    uint64_t blocks;
    answer = tevrolig_to_edition_1(file, length, output, sizeof output, &blocks);
}

static void encode(void)
{
    uint64_t words;
    answer = tevrolig_encode(sheet, TEVROLIG_SHEET_WORDS, coefficients, coefficient_words(), table, TEVROLIG_MAX_TABLE, &words);
}

/* The table is that of the coefficients with some entries spoiled. */
static uint32_t found[TEVROLIG_MAX_NEAREST];

static void nearest(void)
{
    uint64_t words;
    answer = tevrolig_nearest(sheet, TEVROLIG_SHEET_WORDS, table, (size_t)width() * sheet[1], found, TEVROLIG_MAX_NEAREST, &words);
}

static void word(void)
{
    uint32_t found;
    answer = tevrolig_word(file, length, 126, &found);
}

static void sheet_of(void)
{
    uint32_t words[TEVROLIG_SHEET_WORDS];
    answer = tevrolig_sheet_of(file, length, words, TEVROLIG_SHEET_WORDS);
}

/* The field operations and the interface's number, one after the other: 0 where all are done. */
static void elements(void)
{
    uint32_t element, turns;
    uint32_t a[4] = {5, 7, 9, 11}, b[4] = {1, 2, 3, 4}, out[4];
    answer = tevrolig_sum(2, 5, 7, &element) + tevrolig_difference(2, 5, 7, &element) + tevrolig_product(2, 5, 7, &element)
        + tevrolig_power(2, 5, 7, &element) + tevrolig_power_turns(2, 5, 7, &element, &turns) + tevrolig_inverse(2, 5, &element)
        + tevrolig_sum_3(a, b, out) + tevrolig_difference_3(a, b, out) + tevrolig_product_3(a, b, out) + tevrolig_power_3(a, 7, out)
        + tevrolig_power_turns_3(a, 7, out, &turns) + tevrolig_inverse_3(a, out) + (tevrolig_interface_10() != 10);
}

/* Bytes of the stack that a call changes. What the start of a context takes is among them. */
static size_t depth(void (*call)(void))
{
    memset(stack, PAINT, sizeof stack);
    getcontext(&there);
    there.uc_stack.ss_sp = stack;
    there.uc_stack.ss_size = sizeof stack;
    there.uc_link = &here;
    makecontext(&there, call, 0);
    swapcontext(&here, &there);
    size_t untouched = 0;
    while (untouched < sizeof stack && stack[untouched] == PAINT)
        untouched++;
    return sizeof stack - untouched;
}

/* The indices over domain i: 0, 1, 2 and so on, and from the first on again where there are not as many. */
static void draw_indices(uint32_t i)
{
    uint32_t k = i == 0 ? sheet[3] : sheet[11 + i];
    for (uint32_t j = 0; j < sheet[6 + i]; j++)
        coins[coin_count++] = j % ((sheet[1] >> i) / k);
}

/* A coin that is no index: of four words none is 0 but where the first is. */
static void draw_element(uint32_t first)
{
    for (uint32_t j = 0; j < width(); j++)
        coins[coin_count++] = first == 0 ? 0 : first + j;
}

/* Allowed coins, of a batch with r before them: as points 0 and 1 lie in no domain past the first, and the indices of a round are different where there are enough. */
static void draw_coins(int of_batch)
{
    uint32_t rounds = sheet[4], outs = sheet[5];
    coin_count = 0;
    if (of_batch)
        draw_element(3);
    draw_element(7);
    for (uint32_t i = 0; i < rounds; i++) {
        for (uint32_t j = 0; j < outs; j++)
            draw_element(j);
        draw_element(5);
        draw_element(11);
        draw_indices(i);
    }
    draw_indices(rounds);
}

static size_t larger(size_t a, size_t b)
{
    return a > b ? a : b;
}

/* The depth of a call that must be done. */
static size_t done(const char *name, void (*call)(void))
{
    size_t taken = depth(call);
    if (answer != TEVROLIG_DONE) {
        fprintf(stderr, "%s refuses: %u\n", name, (unsigned)answer);
        exit(2);
    }
    return taken;
}

/* The most of each, over all calls. */
static size_t verifying, reading, proving, encoding, converting, verifying_batch, proving_batch, finding, devices, small;

/* What takes a file, of either edition. */
static void verify_and_convert(void)
{
    verifying = larger(verifying, larger(depth(verify), depth(verify_2)));
    verifying = larger(verifying, larger(depth(decide), depth(decide_2)));
    reading = larger(reading, larger(depth(read_file), depth(read_file_2)));
    converting = larger(converting, larger(depth(to_edition_1), depth(to_edition_2)));
    verifying_batch = larger(verifying_batch, depth(verify_batch));
    devices = larger(devices, depth(device_fresh));
    memcpy(device_buffer, file, length);
    device[6] = (uint32_t)length;
    devices = larger(devices, larger(depth(device_start), depth(device_read)));
    small = larger(small, larger(depth(word), depth(sheet_of)));
}

/* Batches over a sheet: as many tables as there may be, with bounds from 1 on that rise, then all with the bound d0. */
static void batches(const uint32_t *words)
{
    sheet = words;
    table_count = 8192 / (width() * sheet[1]);
    if (table_count > TEVROLIG_MAX_TABLES)
        table_count = TEVROLIG_MAX_TABLES;
    for (int all = 0; all < 2; all++) {
        for (size_t m = 0; m < table_count; m++)
            bounds[m] = all ? sheet[2] : 1 + (uint32_t)m * (sheet[2] - 1) / (uint32_t)table_count;
        draw_coins(1);
        proving_batch = larger(proving_batch, done("prove, batch", prove_batch));
        verifying_batch = larger(verifying_batch, done("verify, batch", verify_batch));
        verify_and_convert();
    }
}

/* The nearest polynomial to a table with no wrong entry, with one, with as many as there may be, and to one that nothing is near to. */
static void spoiled_tables(uint32_t field, uint32_t n0, uint32_t d0)
{
    static uint32_t words[TEVROLIG_SHEET_WORDS] = {0, 0, 0, 2, 0, 1, 1, 0, 0, 0, 0, 0};
    words[0] = field;
    words[1] = n0;
    words[2] = d0;
    sheet = words;
    uint32_t counts[4] = {0, 1, (n0 - d0) / 2, n0};
    for (int i = 0; i < 4; i++) {
        done("encode", encode);
        for (uint32_t j = 0; j < width() * counts[i]; j++)
            table[j] = (table[j] + 1 + j % 7) % 17;
        finding = larger(finding, depth(nearest));
        if (answer != TEVROLIG_DONE && (i < 3 || answer != TEVROLIG_NOT_NEAR)) {
            fprintf(stderr, "nearest refuses: %u\n", (unsigned)answer);
            exit(2);
        }
    }
}

int main(int argc, char **argv)
{
    small = done("a field operation", elements);
    for (int i = 1; i < argc; i++) {
        FILE *input = fopen(argv[i], "rb");
        if (input == NULL) {
            perror(argv[i]);
            return 2;
        }
        length = fread(file, 1, sizeof file, input);
        fclose(input);
        verify_and_convert();
    }
    for (size_t i = 0; i < TEVROLIG_MAX_TABLE; i++)
        coefficients[i] = (uint32_t)(i * i);
    for (size_t i = 0; i < SHEET_COUNT; i++) {
        int equal_folds = i % 3 < 2;
        sheet = SHEETS[i];
        draw_coins(0);
        if (equal_folds) {
            proving = larger(proving, done("prove", prove));
            encoding = larger(encoding, done("encode", encode));
            converting = larger(converting, done("to edition 2", to_edition_2));
            verify_and_convert();
        }
        proving = larger(proving, done("prove, edition 2", prove_2));
        verifying = larger(verifying, done("verify, edition 2", verify_2));
        verifying = larger(verifying, done("decide, edition 2", decide_2));
        reading = larger(reading, done("read, edition 2", read_file_2));
        if (equal_folds)
            converting = larger(converting, done("to edition 1", to_edition_1));
        verify_and_convert();
        if (equal_folds)
            batches(SHEETS[i]);
    }
    batches(MANY_TABLES);
    for (size_t i = 0; i < TEVROLIG_MAX_TABLE; i++)
        coefficients[i] = (uint32_t)(i * i) % 17;
    for (uint32_t field = 0; field < 4; field++)
        for (uint32_t n0 = 4; n0 <= (field == 0 ? 16 : field == 3 ? 1024 : 4096); n0 *= 2)
            for (uint32_t d0 = 2; d0 <= n0 / 2; d0 *= 2)
                spoiled_tables(field, n0, d0);
    printf("stack: verify and decide %zu, read %zu, prove %zu, encode %zu, convert %zu, others %zu bytes at most\n", verifying, reading, proving, encoding, converting, small);
    printf("stack of batches: verify %zu, prove %zu bytes at most\n", verifying_batch, proving_batch);
    printf("stack of the nearest polynomial: %zu bytes at most\n", finding);
    printf("stack of the device: %zu bytes at most\n", devices);
    return verifying < TEVROLIG_VERIFY_STACK && reading < TEVROLIG_READ_STACK && proving < TEVROLIG_PROVE_STACK && encoding < TEVROLIG_ENCODE_STACK
        && converting < TEVROLIG_CONVERT_STACK && verifying_batch < TEVROLIG_VERIFY_BATCH_STACK
        && proving_batch < TEVROLIG_PROVE_BATCH_STACK && finding < TEVROLIG_NEAREST_STACK
        && devices < TEVROLIG_DEVICE_STACK && small < 1024 ? 0 : 1;
}
