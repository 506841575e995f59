/* Compares the converter's calls with what the specification says of literal files. Files and outputs are lent from
 * allocations of exactly their lengths, so that a step outside shows under valgrind. */
#include "expect.h"
#include "zeros.h"

/* The file that the specification prints, in both forms. */
static const uint8_t one[] = {
    0x53, 0x45, 0x0B, 0, 0, 0, 3, 1, 0, 2, 0, 4, 0,
    0x57, 0x4F, 8, 0, 0, 0, 5, 0, 5, 0, 5, 0, 5, 0, 5, 0, 5, 0, 5, 0, 5, 0,
    0x50, 0x46, 0, 0, 0, 0,
};
static const uint8_t two[] = {
    0x53, 0x32, 0x0B, 0, 0, 0, 3, 1, 0, 2, 0, 4, 0, 0, 0,
    0x57, 0x32, 8, 0, 0, 0, 5, 5, 5, 5, 5, 5, 5, 5,
    0x50, 0x32, 0, 0, 0, 0,
};

/* What lengths and outputs hold before each call. */
#define UNTOLD 7777777u
#define NOISE 0xA5

static uint8_t *noise(size_t length)
{
    uint8_t *out = malloc(length);

    if (length == 0)
        return out;
    if (out == NULL)
        abort();
    memset(out, NOISE, length);
    return out;
}

static int is_noise(const uint8_t *out, size_t length)
{
    size_t i;

    for (i = 0; i < length && out[i] == NOISE; i++)
        ;
    return i == length;
}

static int same(const uint8_t *a, const uint8_t *b, size_t length)
{
    return length == 0 || memcmp(a, b, length) == 0;
}

static void tells(const char *what, const uint8_t *file, size_t length, uint32_t number, size_t converted)
{
    size_t told = UNTOLD;

    expect(what, proximity_converted_length(file, length, &told), number);
    expect(what, told == converted, 1);
}

/* The file is converted to these bytes, and refused by 6 in outputs of other lengths. */
static void converts(const char *what, const uint8_t *bytes, size_t length, const uint8_t *right, size_t right_length)
{
    size_t rooms[8], i;
    uint8_t *file = copy_of(bytes, length), *out = noise(right_length);

    tells(what, file, length, 0, right_length);
    expect(what, proximity_convert(file, length, out, right_length), 0);
    expect(what, same(out, right, right_length), 1);
    expect(what, same(file, bytes, length), 1);
    free(out);

    rooms[0] = 0;
    rooms[1] = 1;
    rooms[2] = right_length - 1;
    rooms[3] = right_length + 1;
    rooms[4] = right_length - 2;
    rooms[5] = length;
    rooms[6] = 2 * right_length;
    rooms[7] = right_length / 2;
    for (i = 0; i < 8; i++) {
        out = noise(rooms[i]);
        expect(what, proximity_convert(file, length, out, rooms[i]), PROXIMITY_REFUSED_LENGTH);
        expect(what, is_noise(out, rooms[i]), 1);
        free(out);
    }
    free(file);
}

static void both_ways(const char *what, const uint8_t *first, size_t first_length, const uint8_t *second, size_t second_length)
{
    converts(what, first, first_length, second, second_length);
    converts(what, second, second_length, first, first_length);
}

/* Both calls refuse the file, into any output. */
static void refused_both(const char *what, const uint8_t *bytes, size_t length, uint32_t number)
{
    static const size_t rooms[] = {0, 1, 35, 40, 41, 42};
    uint8_t *file = copy_of(bytes, length), *out;
    size_t i;

    tells(what, file, length, number, UNTOLD);
    for (i = 0; i < sizeof rooms / sizeof *rooms; i++) {
        out = noise(rooms[i]);
        expect(what, proximity_convert(file, length, out, rooms[i]), number);
        expect(what, is_noise(out, rooms[i]), 1);
        free(out);
    }
    free(file);
}

/* A file's first bytes, with one byte changed. */
static void changed(const char *what, const uint8_t *file, size_t length, size_t at, uint8_t byte, uint32_t number)
{
    uint8_t bytes[64];

    memcpy(bytes, file, length);
    bytes[at] = byte;
    refused_both(what, bytes, length, number);
}

static void in_form_one(const char *what, size_t at, uint8_t byte, uint32_t number)
{
    changed(what, one, sizeof one, at, byte, number);
}

static void in_form_two(const char *what, size_t at, uint8_t byte, uint32_t number)
{
    changed(what, two, sizeof two, at, byte, number);
}

static void refusals(void)
{
    in_form_one("modulus 7", 2, 7, PROXIMITY_REFUSED_MODULUS_RANGE);
    in_form_one("modulus 15", 2, 15, PROXIMITY_REFUSED_MODULUS_REDUCIBLE);
    in_form_one("k = 15", 6, 15, PROXIMITY_REFUSED_BASIS_SIZE);
    in_form_one("k = 13", 6, 13, PROXIMITY_REFUSED_BASIS_RANGE);
    in_form_one("basis element 8", 11, 8, PROXIMITY_REFUSED_BASIS_RANGE);
    in_form_one("basis 1, 2, 3", 11, 3, PROXIMITY_REFUSED_BASIS_DEPENDENT);
    in_form_one("symbol 8", 19, 8, PROXIMITY_REFUSED_SYMBOL);
    in_form_one("the word's mark of form 2", 14, 0x32, PROXIMITY_REFUSED_CUT);
    in_form_one("the proof's mark of form 2", 36, 0x32, PROXIMITY_REFUSED_CUT);
    in_form_one("7 symbols in the word", 15, 7, PROXIMITY_REFUSED_COUNT);

    in_form_two("modulus 7 in form 2", 2, 7, PROXIMITY_REFUSED_MODULUS_RANGE);
    in_form_two("modulus 15 in form 2", 2, 15, PROXIMITY_REFUSED_MODULUS_REDUCIBLE);
    in_form_two("k = 2 in form 2", 6, 2, PROXIMITY_REFUSED_BASIS_SIZE);
    in_form_two("k = 15 in form 2", 6, 15, PROXIMITY_REFUSED_BASIS_SIZE);
    in_form_two("k = 14 in form 2", 6, 14, PROXIMITY_REFUSED_CUT);
    in_form_two("basis element 8 in form 2", 11, 8, PROXIMITY_REFUSED_BASIS_RANGE);
    in_form_two("shift 8", 13, 8, PROXIMITY_REFUSED_BASIS_RANGE);
    in_form_two("shift 256", 14, 1, PROXIMITY_REFUSED_BASIS_RANGE);
    in_form_two("basis 1, 2, 3 in form 2", 11, 3, PROXIMITY_REFUSED_BASIS_DEPENDENT);
    in_form_two("symbol 8 in form 2", 21, 8, PROXIMITY_REFUSED_SYMBOL);
    in_form_two("the word's mark of form 1", 16, 0x4F, PROXIMITY_REFUSED_CUT);
    in_form_two("16 symbols in the word", 17, 16, PROXIMITY_REFUSED_COUNT);
    in_form_two("shift 1", 13, 1, PROXIMITY_REFUSED_SHIFT);
    in_form_two("shift 7", 13, 7, PROXIMITY_REFUSED_SHIFT);
}

/* Every length but the right one. 12 comes before 14. */
static void lengths(void)
{
    uint8_t longer[sizeof one + 1] = {0};
    size_t length;

    for (length = 0; length < sizeof one; length++)
        refused_both("cut", one, length, PROXIMITY_REFUSED_CUT);
    for (length = 0; length < sizeof two; length++)
        refused_both("cut in form 2", two, length, PROXIMITY_REFUSED_CUT);
    memcpy(longer, one, sizeof one);
    refused_both("a byte appended", longer, sizeof one + 1, PROXIMITY_REFUSED_COUNT);
    memset(longer, 0, sizeof longer);
    memcpy(longer, two, sizeof two);
    refused_both("a byte appended in form 2", longer, sizeof two + 1, PROXIMITY_REFUSED_COUNT);
    longer[13] = 1;
    refused_both("a byte appended, and shift 1", longer, sizeof two + 1, PROXIMITY_REFUSED_COUNT);
    refused_both("cut, and shift 1", longer, sizeof two - 1, PROXIMITY_REFUSED_CUT);
}

/* No bytes at all. */
static void lent_nowhere(void)
{
    uint8_t *file = copy_of(one, sizeof one);

    tells("NULL", NULL, 0, PROXIMITY_REFUSED_CUT, UNTOLD);
    expect("NULL to NULL", proximity_convert(NULL, 0, NULL, 0), PROXIMITY_REFUSED_CUT);
    expect("a file to NULL", proximity_convert(file, sizeof one, NULL, 0), PROXIMITY_REFUSED_LENGTH);
    free(file);
}

/* Addresses of every remainder by 8; file and output end where their allocations do. */
static void lent_anywhere(void)
{
    size_t i;

    for (i = 0; i < 64; i++) {
        uint8_t *from = noise(i / 8 + sizeof two), *to = noise(i % 8 + sizeof one);

        memcpy(from + i / 8, two, sizeof two);
        expect("moved file", proximity_convert(from + i / 8, sizeof two, to + i % 8, sizeof one), 0);
        expect("moved file", same(to + i % 8, one, sizeof one), 1);
        expect("before the output", is_noise(to, i % 8), 1);
        free(from);
        free(to);
    }
}

/* Files of zeros in both forms, with the largest and some other symbols; at l = 8 a symbol has one byte, from l = 9 on two. */
static void zeros(uint32_t modulus, uint32_t k, uint32_t size)
{
    struct zeros first = zeros_of(1, modulus, k, size), second = zeros_of(2, modulus, k, size);
    uint32_t n = (uint32_t)1 << k, top = 8, i;

    while (2 * top <= modulus)
        top *= 2;
    for (i = 0; i < n; i += 3) {
        put(first.word + first.symbol * i, (top - 1 - i) % top, first.symbol);
        put(second.word + second.symbol * i, (top - 1 - i) % top, second.symbol);
    }
    for (i = 0; i < size; i += 5) {
        put(first.proof + first.symbol * i, 7 * i % top, first.symbol);
        put(second.proof + second.symbol * i, 7 * i % top, second.symbol);
    }
    both_ways("a file in both forms", first.file, first.length, second.file, second.length);
    put(second.shift, top - 1, 2);
    refused_both("a shift", second.file, second.length, PROXIMITY_REFUSED_SHIFT);
    if (top < 65536) {
        put(second.shift, top, 2);
        refused_both("a shift out of range", second.file, second.length, PROXIMITY_REFUSED_BASIS_RANGE);
    }
    free(first.file);
    free(second.file);
}

int main(void)
{
    both_ways("the specification's file", one, sizeof one, two, sizeof two);
    refusals();
    lengths();
    lent_nowhere();
    lent_anywhere();
    zeros(11, 3, 0);
    zeros(137, 7, 896);
    zeros(283, 7, 896);
    zeros(515, 7, 896);
    zeros(283, 8, 16128);
    zeros(65581, 8, 16128);
    zeros(4105, 12, 2093056);
    zeros(8219, 13, 4415488);
    return closing();
}
