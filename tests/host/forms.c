/* Compares the checker's calls with what the specification says of a literal file of form 2. */
#include "expect.h"
#include "zeros.h"

/* The file that the specification prints, in form 2. */
static const uint8_t sample[] = {
    0x53, 0x32, 0x0B, 0, 0, 0, 3, 1, 0, 2, 0, 4, 0, 0, 0,
    0x57, 0x32, 8, 0, 0, 0, 5, 5, 5, 5, 5, 5, 5, 5,
    0x50, 0x32, 0, 0, 0, 0,
};

/* The sample's first bytes, with two bytes changed. */
static void two_changed(const char *what, size_t length, size_t at, uint8_t byte, size_t other, uint8_t second, uint32_t number)
{
    uint8_t bytes[sizeof sample];

    memcpy(bytes, sample, sizeof sample);
    bytes[at] = byte;
    bytes[other] = second;
    refused(what, bytes, length, number);
}

static void cut_and_changed(const char *what, size_t length, size_t at, uint8_t byte, uint32_t number)
{
    two_changed(what, length, at, byte, at, byte, number);
}

static void changed(const char *what, size_t at, uint8_t byte, uint32_t number)
{
    cut_and_changed(what, sizeof sample, at, byte, number);
}

/* Every shift that is a symbol, and each symbol of the word changed. */
static void accepted_sample(void)
{
    uint8_t *file = copy_of(sample, sizeof sample);
    size_t i;

    for (file[13] = 0; file[13] < 8; file[13]++) {
        expect("sample", proximity_file_refusal(file, sizeof sample), 0);
        expect("bits of the sample", proximity_coin_bits(file, sizeof sample), 0);
        accepts("sample", file, sizeof sample, 0, 8);
        refuses("sample at coin 1", file, sizeof sample, 1, PROXIMITY_REFUSED_COIN);
        for (i = 21; i < 29; i++) {
            file[i] = 6;
            rejects("sample with one 6", file, sizeof sample, 0, 7, 3);
            file[i] = 5;
        }
    }
    free(file);
}

static void refused_settings(void)
{
    changed("modulus 7", 2, 7, PROXIMITY_REFUSED_MODULUS_RANGE);
    changed("modulus 15", 2, 15, PROXIMITY_REFUSED_MODULUS_REDUCIBLE);
    changed("k = 2", 6, 2, PROXIMITY_REFUSED_BASIS_SIZE);
    changed("k = 15", 6, 15, PROXIMITY_REFUSED_BASIS_SIZE);
    /* what follows is read as basis elements and the shift */
    changed("k = 13", 6, 13, PROXIMITY_REFUSED_BASIS_RANGE);
    changed("k = 14", 6, 14, PROXIMITY_REFUSED_CUT);
    changed("basis element 8", 11, 8, PROXIMITY_REFUSED_BASIS_RANGE);
    changed("basis 1, 2, 3", 11, 3, PROXIMITY_REFUSED_BASIS_DEPENDENT);
    changed("shift 8", 13, 8, PROXIMITY_REFUSED_BASIS_RANGE);
    changed("shift 256", 14, 1, PROXIMITY_REFUSED_BASIS_RANGE);
    two_changed("shift 8 beside the basis 1, 2, 3", sizeof sample, 11, 3, 13, 8, PROXIMITY_REFUSED_BASIS_RANGE);
    two_changed("shift 7 beside the basis 1, 2, 3", sizeof sample, 11, 3, 13, 7, PROXIMITY_REFUSED_BASIS_DEPENDENT);
}

static void refused_records(void)
{
    static const size_t marks[] = {0, 1, 15, 16, 29, 30};
    size_t i;

    for (i = 0; i < sizeof marks / sizeof *marks; i++)
        changed("mark", marks[i], sample[marks[i]] ^ 1, PROXIMITY_REFUSED_CUT);
    changed("the setting's mark of form 1", 1, 0x45, PROXIMITY_REFUSED_CUT);
    changed("the word's mark of form 1", 16, 0x4F, PROXIMITY_REFUSED_CUT);
    changed("the proof's mark of form 1", 30, 0x46, PROXIMITY_REFUSED_CUT);
    changed("16 symbols in the word", 17, 16, PROXIMITY_REFUSED_COUNT);
    changed("7 symbols in the word", 17, 7, PROXIMITY_REFUSED_COUNT);
    changed("1 symbol in the proof", 31, 1, PROXIMITY_REFUSED_COUNT);
    for (i = 21; i < 29; i++) {
        changed("symbol 8", i, 8, PROXIMITY_REFUSED_SYMBOL);
        changed("symbol 255", i, 255, PROXIMITY_REFUSED_SYMBOL);
    }
}

/* Which check comes first in a file that is cut. */
static void refused_lengths(void)
{
    only_whole(sample, sizeof sample);
    cut_and_changed("modulus 7 without a basis", 7, 2, 7, PROXIMITY_REFUSED_MODULUS_RANGE);
    cut_and_changed("k = 15 without a basis", 7, 6, 15, PROXIMITY_REFUSED_BASIS_SIZE);
    cut_and_changed("k = 13 without a basis", 7, 6, 13, PROXIMITY_REFUSED_CUT);
    cut_and_changed("k = 13 with half a shift", 34, 6, 13, PROXIMITY_REFUSED_CUT);
    cut_and_changed("basis element 8 without a shift", 13, 11, 8, PROXIMITY_REFUSED_CUT);
    cut_and_changed("basis element 8 with half a shift", 14, 11, 8, PROXIMITY_REFUSED_CUT);
    cut_and_changed("basis element 8 with a shift", 15, 11, 8, PROXIMITY_REFUSED_BASIS_RANGE);
    cut_and_changed("basis 1, 2, 3 with half a shift", 14, 11, 3, PROXIMITY_REFUSED_CUT);
    cut_and_changed("shift 8 without a word", 15, 13, 8, PROXIMITY_REFUSED_BASIS_RANGE);
    cut_and_changed("7 symbols, and none there", 21, 17, 7, PROXIMITY_REFUSED_COUNT);
    cut_and_changed("symbol 8 in a word that is cut", 28, 21, 8, PROXIMITY_REFUSED_CUT);
    cut_and_changed("symbol 8 without a proof", 29, 21, 8, PROXIMITY_REFUSED_SYMBOL);
}

/* One coin at k = 7 with every kind of shift: the answers do not depend on it. */
static void shifts(void)
{
    static const uint16_t table[] = {0, 1, 127, 128, 255};
    struct zeros z = zeros_of(2, 283, 7, 896);
    size_t i;

    for (i = 0; i < sizeof table / sizeof *table; i++) {
        put(z.shift, table[i], 2);
        z.word[32] = 0;
        accepts("row 4 of zeros", z.file, z.length, 8, 64);
        z.word[32] = 1;
        rejects("row 4 with a 1", z.file, z.length, 8, 63, 6);
    }
    put(z.shift, 256, 2);
    refused("shift 256 at l = 8", z.file, z.length, PROXIMITY_REFUSED_BASIS_RANGE);
    free(z.file);
}

/* Symbols in the other number of bytes: the head of the proof is read as symbols, or zeros of the word as that head. */
static void widths(void)
{
    struct zeros narrow = zeros_of(2, 283, 7, 896), wide = zeros_of(2, 515, 7, 896);

    put(narrow.file + 2, 515, 4);
    refused("l = 9 with one byte a symbol", narrow.file, narrow.length, PROXIMITY_REFUSED_SYMBOL);
    put(wide.file + 2, 283, 4);
    refused("l = 8 with two bytes a symbol", wide.file, wide.length, PROXIMITY_REFUSED_CUT);
    free(narrow.file);
    free(wide.file);
}

int main(void)
{
    accepted_sample();
    refused_settings();
    refused_records();
    refused_lengths();
    shifts();
    widths();
    return closing();
}
