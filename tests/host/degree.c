/* The degree behind a reject, in files whose short words hold polynomials that are known: literal symbols of GF(16), by the
 * modulus 19, and of GF(256), by the modulus 283; and one symbol among zeros. */
#include "../reads/positions.h"
#include "expect.h"
#include "zeros.h"

static void put_at(struct zeros z, struct place p, uint32_t symbol)
{
    put((p.in_proof ? z.proof : z.word) + z.symbol * p.at, symbol, z.symbol);
}

/* ---- k = 4, a word of 16 symbols: position i belongs to the element i */

static const struct {
    uint32_t degree;
    uint8_t word[16];
} powers[] = {
    {0, {0, 0, 0, 0, 0, 0, 0, 0, 0, 0, 0, 0, 0, 0, 0, 0}},
    {0, {9, 9, 9, 9, 9, 9, 9, 9, 9, 9, 9, 9, 9, 9, 9, 9}},
    {1, {0, 1, 2, 3, 4, 5, 6, 7, 8, 9, 10, 11, 12, 13, 14, 15}},
    {2, {0, 1, 4, 5, 3, 2, 7, 6, 12, 13, 8, 9, 15, 14, 11, 10}},
    /* x^2 + x + 1 */
    {2, {1, 1, 7, 7, 6, 6, 0, 0, 5, 5, 3, 3, 2, 2, 4, 4}},
    {3, {0, 1, 8, 15, 12, 10, 1, 1, 10, 15, 15, 12, 8, 10, 8, 12}},
    {4, {0, 1, 3, 2, 5, 4, 6, 7, 15, 14, 12, 13, 10, 11, 9, 8}},
    {8, {0, 1, 5, 4, 2, 3, 7, 6, 10, 11, 15, 14, 8, 9, 13, 12}},
    {15, {0, 1, 1, 1, 1, 1, 1, 1, 1, 1, 1, 1, 1, 1, 1, 1}},
};

/* A degree below 2 is accepted; in form 2 nothing depends on the shift. */
static void dimension_4(int form)
{
    struct zeros z = zeros_of(form, 19, 4, 0);
    uint32_t shift, n, i;

    for (shift = 0; shift < (form == 2 ? 16 : 1); shift++) {
        if (form == 2)
            put(z.shift, shift, 2);
        for (n = 0; n < sizeof powers / sizeof *powers; n++) {
            for (i = 0; i < 16; i++)
                put(z.word + z.symbol * i, powers[n].word[i], z.symbol);
            if (powers[n].degree < 2)
                accepts("a low degree at k = 4", z.file, z.length, 0, 16);
            else
                rejects("a degree at k = 4", z.file, z.length, 0, powers[n].degree, 4);
            refuses("coin 1 at k = 4", z.file, z.length, 1, PROXIMITY_REFUSED_COIN);
        }
    }
    free(z.file);
}

/* ---- k = 7: powers of x at the positions of a coin */

/* Such a power is additive: its symbol at an element is the sum of those at the basis elements that the bits of the position
 * name. */
static uint32_t at_element(const uint8_t *at_basis, size_t position)
{
    uint32_t sum = 0;

    for (; position > 0; position /= 2, at_basis++)
        sum ^= position % 2 ? *at_basis : 0;
    return sum;
}

static const struct {
    uint32_t coin, dimension, degree;
    uint8_t at_basis[6];
} additive[] = {
    /* row 0, over the span of 1, 2, 4, 8, 16 and 32 */
    {0, 6, 4, {1, 16, 27, 171, 94, 151}},
    {0, 6, 8, {1, 27, 94, 179, 228, 148}},
    {32, 6, 16, {1, 94, 228, 232, 77, 145}},
    {0, 6, 32, {1, 228, 77, 29, 250, 128}},
    /* row 5, whose last basis element is 8 + 32 */
    {10, 6, 4, {1, 16, 27, 171, 94, 151 ^ 171}},
    {42, 6, 8, {1, 27, 94, 179, 228, 148 ^ 179}},
    {10, 6, 32, {1, 228, 77, 29, 250, 128 ^ 29}},
    /* column 31, over the span of 116, 50, 129 and 217: at 8, 16, 32 and 64 the product of x - a over all sums a of 1, 2
     * and 4 */
    {63, 4, 1, {116, 50, 129, 217, 0, 0}},
    {63, 4, 2, {204, 115, 155, 107, 0, 0}},
    {63, 4, 4, {97, 217, 196, 130, 0, 0}},
    {63, 4, 8, {198, 107, 33, 158, 0, 0}},
};

static void dimension_7(int form)
{
    struct zeros z = zeros_of(form, 283, 7, 896);
    struct place found[MOST];
    size_t count, n, i;

    if (form == 2)
        put(z.shift, 200, 2);
    for (n = 0; n < sizeof additive / sizeof *additive; n++) {
        uint32_t coin = additive[n].coin, m = additive[n].dimension;

        count = positions(7, coin, found);
        for (i = 0; i < count; i++)
            put_at(z, found[i], at_element(additive[n].at_basis, i));
        if (additive[n].degree < (uint32_t)1 << (m - 3))
            accepts("a low degree at k = 7", z.file, z.length, coin, (uint32_t)1 << m);
        else
            rejects("a degree at k = 7", z.file, z.length, coin, additive[n].degree, m);
        for (i = 0; i < count; i++)
            put_at(z, found[i], 0);
    }
    accepts("zeros again", z.file, z.length, 0, 64);
    free(z.file);
}

/* ---- one symbol among zeros, which has the highest degree, at the coin's first and last place */

static void one_symbol(int form, uint32_t modulus, uint32_t k, uint64_t coin, uint32_t dimension)
{
    struct zeros z = zeros_of(form, modulus, k, proof_length(k));
    struct place found[MOST];
    uint32_t count = positions(k, coin, found), i;

    expect("reads of the coin", count, (uint32_t)1 << dimension);
    for (i = 0; i < count; i += count - 1) {
        put_at(z, found[i], 1);
        rejects("one symbol", z.file, z.length, coin, count - 1, dimension);
        put_at(z, found[i], 0);
    }
    accepts("no symbol", z.file, z.length, coin, count);
    free(z.file);
}

/* ---- what the numbers hold before a call */

static void held(const uint8_t *file, size_t length, uint32_t before)
{
    uint32_t reads = before, degree = before, dimension = before;

    expect("refused", proximity_check_degree(file, length, 1, &reads, &degree, &dimension), PROXIMITY_REFUSED_COIN);
    expect("reads of a refused call", reads, before);
    expect("degree of a refused call", degree, before);
    expect("dimension of a refused call", dimension, before);
    expect("accepted", proximity_check_degree(file, length, 0, &reads, &degree, &dimension), PROXIMITY_ACCEPT);
    expect("reads of an accepted call", reads, 16);
    expect("degree of an accepted call", degree, 0);
    expect("dimension of an accepted call", dimension, 0);
}

int main(void)
{
    struct zeros z = zeros_of(1, 19, 4, 0);
    int form;

    held(z.file, z.length, 0);
    held(z.file, z.length, 1);
    held(z.file, z.length, UINT32_MAX);
    free(z.file);
    for (form = 1; form <= 2; form++) {
        dimension_4(form);
        dimension_7(form);
        /* coin 0 takes rows, and the last coin a column */
        one_symbol(form, 8219, 3, 0, 3);
        one_symbol(form, 8219, 5, 0, 5);
        one_symbol(form, 8219, 8, 0, 6);
        one_symbol(form, 8219, 8, 2047, 4);
        one_symbol(form, 8219, 9, 4095, 5);
        one_symbol(form, 8219, 10, 131071, 5);
        one_symbol(form, 8219, 11, 262143, 6);
    }
    /* row 4 of column 5, and column 31 of that column */
    one_symbol(1, 8219, 13, 4107, 6);
    one_symbol(1, 8219, 13, 32267, 4);
    return closing();
}
