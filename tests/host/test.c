/* Compares the checker's calls with what the specification says of literal files of form 1, and of files of zeros in both
 * forms. */
#include "expect.h"
#include "zeros.h"

/* ---- k = 3: the file that the specification prints */

static const uint8_t sample[] = {
    0x53, 0x45, 0x0B, 0, 0, 0, 3, 1, 0, 2, 0, 4, 0,
    0x57, 0x4F, 8, 0, 0, 0, 5, 0, 5, 0, 5, 0, 5, 0, 5, 0, 5, 0, 5, 0, 5, 0,
    0x50, 0x46, 0, 0, 0, 0,
};

/* The sample's first bytes, with one byte changed. */
static void cut_and_changed(const char *what, size_t length, size_t at, uint8_t byte, uint32_t number)
{
    uint8_t bytes[sizeof sample];

    memcpy(bytes, sample, sizeof sample);
    bytes[at] = byte;
    refused(what, bytes, length, number);
}

static void changed(const char *what, size_t at, uint8_t byte, uint32_t number)
{
    cut_and_changed(what, sizeof sample, at, byte, number);
}

static void accepted_sample(void)
{
    uint8_t *file = copy_of(sample, sizeof sample);
    size_t i;

    expect("sample", proximity_file_refusal(file, sizeof sample), 0);
    expect("bits of the sample", proximity_coin_bits(file, sizeof sample), 0);
    accepts("sample", file, sizeof sample, 0, 8);
    refuses("sample at coin 1", file, sizeof sample, 1, PROXIMITY_REFUSED_COIN);
    for (i = 19; i < 35; i += 2) {
        file[i] = 6;
        rejects("sample with one 6", file, sizeof sample, 0, 7, 3);
        file[i] = 5;
    }
    free(file);
}

static void refused_settings(void)
{
    changed("modulus 7", 2, 7, PROXIMITY_REFUSED_MODULUS_RANGE);
    changed("modulus 131083", 4, 2, PROXIMITY_REFUSED_MODULUS_RANGE);
    changed("modulus 15", 2, 15, PROXIMITY_REFUSED_MODULUS_REDUCIBLE);
    changed("modulus 21", 2, 21, PROXIMITY_REFUSED_MODULUS_REDUCIBLE);
    changed("no basis", 6, 0, PROXIMITY_REFUSED_BASIS_SIZE);
    changed("k = 2", 6, 2, PROXIMITY_REFUSED_BASIS_SIZE);
    changed("k = 15", 6, 15, PROXIMITY_REFUSED_BASIS_SIZE);
    /* what follows is read as basis elements */
    changed("k = 13", 6, 13, PROXIMITY_REFUSED_BASIS_RANGE);
    changed("k = 14", 6, 14, PROXIMITY_REFUSED_BASIS_RANGE);
    changed("basis element 8", 11, 8, PROXIMITY_REFUSED_BASIS_RANGE);
    changed("basis element 260", 12, 1, PROXIMITY_REFUSED_BASIS_RANGE);
    changed("basis 1, 2, 3", 11, 3, PROXIMITY_REFUSED_BASIS_DEPENDENT);
    changed("basis 1, 2, 2", 11, 2, PROXIMITY_REFUSED_BASIS_DEPENDENT);
    changed("basis 0, 2, 4", 7, 0, PROXIMITY_REFUSED_BASIS_DEPENDENT);
}

static void refused_records(void)
{
    static const size_t marks[] = {0, 1, 13, 14, 35, 36};
    size_t i;

    for (i = 0; i < sizeof marks / sizeof *marks; i++)
        changed("mark", marks[i], sample[marks[i]] ^ 1, PROXIMITY_REFUSED_CUT);
    changed("7 symbols in the word", 15, 7, PROXIMITY_REFUSED_COUNT);
    changed("9 symbols in the word", 15, 9, PROXIMITY_REFUSED_COUNT);
    changed("1 symbol in the proof", 37, 1, PROXIMITY_REFUSED_COUNT);
    for (i = 0; i < 3; i++) {
        changed("high byte of the word's count", 16 + i, 1, PROXIMITY_REFUSED_COUNT);
        changed("high byte of the proof's count", 38 + i, 1, PROXIMITY_REFUSED_COUNT);
    }
    for (i = 19; i < 35; i += 2) {
        changed("symbol 8", i, 8, PROXIMITY_REFUSED_SYMBOL);
        changed("symbol 261", i + 1, 1, PROXIMITY_REFUSED_SYMBOL);
    }
}

/* Which check comes first in a file that is cut. */
static void refused_lengths(void)
{
    only_whole(sample, sizeof sample);
    cut_and_changed("modulus 7 cut in the head", 6, 2, 7, PROXIMITY_REFUSED_CUT);
    cut_and_changed("modulus 7 without a basis", 7, 2, 7, PROXIMITY_REFUSED_MODULUS_RANGE);
    cut_and_changed("modulus 15 without a basis", 7, 2, 15, PROXIMITY_REFUSED_MODULUS_REDUCIBLE);
    cut_and_changed("k = 15 without a basis", 7, 6, 15, PROXIMITY_REFUSED_BASIS_SIZE);
    cut_and_changed("k = 13 without a basis", 7, 6, 13, PROXIMITY_REFUSED_CUT);
    cut_and_changed("k = 13 with 12 elements and a half", 32, 6, 13, PROXIMITY_REFUSED_CUT);
    cut_and_changed("k = 13 with 13 elements", 33, 6, 13, PROXIMITY_REFUSED_BASIS_RANGE);
    cut_and_changed("k = 14 with 13 elements and a half", 34, 6, 14, PROXIMITY_REFUSED_CUT);
    cut_and_changed("basis element 8 without a word", 13, 11, 8, PROXIMITY_REFUSED_BASIS_RANGE);
    cut_and_changed("7 symbols, and none there", 19, 15, 7, PROXIMITY_REFUSED_COUNT);
    cut_and_changed("symbol 8 in a word that is cut", 34, 19, 8, PROXIMITY_REFUSED_CUT);
    cut_and_changed("symbol 8 without a proof", 35, 19, 8, PROXIMITY_REFUSED_SYMBOL);
}

/* No bytes at all. */
static void lent_nowhere(void)
{
    expect("NULL", proximity_file_refusal(NULL, 0), PROXIMITY_REFUSED_CUT);
    expect("bits of NULL", proximity_coin_bits(NULL, 0), 0);
    refuses("NULL", NULL, 0, 0, PROXIMITY_REFUSED_CUT);
    refuses("NULL", NULL, 0, UINT64_MAX, PROXIMITY_REFUSED_CUT);
}

/* Addresses of every remainder by 8, odd ones among them; the file ends where its allocation does. */
static void lent_anywhere(void)
{
    size_t shift;

    for (shift = 0; shift < 8; shift++) {
        uint8_t *room = malloc(shift + sizeof sample), *file;

        if (room == NULL)
            abort();
        file = room + shift;
        memcpy(file, sample, sizeof sample);
        expect("moved file", proximity_file_refusal(file, sizeof sample), 0);
        accepts("moved file", file, sizeof sample, 0, 8);
        file[33] = 6;
        rejects("moved file with one 6", file, sizeof sample, 0, 7, 3);
        expect("moved file, cut", proximity_file_refusal(file, sizeof sample - 1), PROXIMITY_REFUSED_CUT);
        free(room);
    }
}

/* ---- files of zeros, in both forms */

/* All 64 coins of k = 7: an even one reads a row of 64 symbols, an odd one a column of 16. Bit i of `off` is set where coin i
 * reads the one symbol that is not 0. A polynomial through it and the zeros has as many roots as there are zeros, 63 or 15, and
 * there is one of that degree. */
static void all_coins(const char *what, struct zeros z, uint64_t off)
{
    uint32_t coin;

    for (coin = 0; coin < 64; coin++) {
        if ((off >> coin & 1) == 0)
            accepts(what, z.file, z.length, coin, coin % 2 ? 16 : 64);
        else if (coin % 2)
            rejects(what, z.file, z.length, coin, 15, 4);
        else
            rejects(what, z.file, z.length, coin, 63, 6);
    }
}

static uint64_t bit(uint32_t i)
{
    return (uint64_t)1 << i;
}

static void dimension_7(int form)
{
    struct zeros z = zeros_of(form, 283, 7, 896);

    expect("k = 7", proximity_file_refusal(z.file, z.length), 0);
    expect("bits at k = 7", proximity_coin_bits(z.file, z.length), 6);
    all_coins("zeros", z, 0);
    refuses("coin 64", z.file, z.length, 64, PROXIMITY_REFUSED_COIN);
    refuses("coin 2^32", z.file, z.length, bit(32), PROXIMITY_REFUSED_COIN);
    refuses("coin 2^63", z.file, z.length, bit(63), PROXIMITY_REFUSED_COIN);

    /* position 0 of the proof is position 8 of row 0, which coins 0 and 32 take, and lies in column 8 */
    z.proof[0] = 1;
    all_coins("proof position 0", z, bit(0) | bit(32) | bit(1 + 2 * 8));
    z.proof[0] = 0;

    /* position 32 of the word is in block 4 of row 4, and in no column */
    z.word[z.symbol * 32] = 1;
    all_coins("word position 32", z, bit(2 * 4) | bit(32 + 2 * 4));
    z.word[z.symbol * 32] = 0;

    refused("k = 7, cut", z.file, z.length - 1, PROXIMITY_REFUSED_CUT);
    z.proof[-4] = 0x81;
    refused("897 symbols in the proof", z.file, z.length, PROXIMITY_REFUSED_COUNT);
    free(z.file);
}

/* The last symbol of a file at k = 7 as large as it may be, and one more. A byte holds no symbol that is too large at l = 8. */
static void last_symbol(int form, uint32_t modulus, uint32_t limit)
{
    struct zeros z = zeros_of(form, modulus, 7, 896);
    uint8_t *last = z.file + z.length - z.symbol;

    put(last, limit - 1, z.symbol);
    expect("the last symbol below 2^l", proximity_file_refusal(z.file, z.length), 0);
    if (limit >> 8 * z.symbol == 0) {
        put(last, limit, z.symbol);
        refused("the last symbol 2^l", z.file, z.length, PROXIMITY_REFUSED_SYMBOL);
    }
    free(z.file);
}

/* The proof lengths and coin bits by dimension, the largest in form 1 alone, for the time. The last coin takes a column, and from
 * 13 on a column in it; coin 0 takes rows down to one of 64 symbols. */
static void dimensions(int form)
{
    static const struct {
        uint32_t modulus, k, size, bits, column;
    } table[] = {
        {4105, 7, 896, 6, 16}, {4105, 8, 16128, 11, 16}, {4105, 9, 32256, 12, 32}, {4105, 10, 523264, 17, 32},
        {4105, 11, 1046528, 18, 64}, {4105, 12, 2093056, 19, 64}, {8219, 13, 4415488, 20, 16}, {16427, 14, 67551232, 25, 16},
    };
    size_t count = sizeof table / sizeof *table - (form == 2), i;

    for (i = 0; i < count; i++) {
        struct zeros z = zeros_of(form, table[i].modulus, table[i].k, table[i].size);

        expect("dimension", proximity_file_refusal(z.file, z.length), 0);
        expect("coin bits", proximity_coin_bits(z.file, z.length), table[i].bits);
        accepts("coin 0", z.file, z.length, 0, 64);
        accepts("last coin", z.file, z.length, bit(table[i].bits) - 1, table[i].column);
        refuses("coin past the last", z.file, z.length, bit(table[i].bits), PROXIMITY_REFUSED_COIN);
        free(z.file);
    }
}

int main(void)
{
    int form;

    accepted_sample();
    refused_settings();
    refused_records();
    refused_lengths();
    lent_nowhere();
    lent_anywhere();
    for (form = 1; form <= 2; form++) {
        dimension_7(form);
        last_symbol(form, 137, 1 << 7);
        last_symbol(form, 283, 1 << 8);
        last_symbol(form, 515, 1 << 9);
        dimensions(form);
    }
    return closing();
}
