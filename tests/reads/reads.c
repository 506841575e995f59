/* What the checker reads. All symbols of word and proof are closed to valgrind but those at the coin's positions, so that a read of
 * any other is an error; and where one of these is closed too, there must be an error. Zeros are a codeword, and their proof is
 * zeros; with one symbol that is not 0 among the positions the coin rejects, and the degree is the highest that they can have. */
#include <valgrind/memcheck.h>

#include "../host/expect.h"
#include "positions.h"

uint64_t proximity_check(uint32_t modulus, const uint16_t *basis, size_t elements, uint16_t shift, const uint16_t *word, size_t words,
                         const uint16_t *proof, size_t proofs, uint64_t coin);

struct delivery {
    uint32_t k;
    uint16_t basis[14], *word, *proof;
    size_t words, proofs;
};

static uint16_t *zeros(size_t count)
{
    uint16_t *all = calloc(count + 1, sizeof *all);

    if (all == NULL)
        abort();
    (void)VALGRIND_MAKE_MEM_NOACCESS(all, (count + 1) * sizeof *all);
    return all;
}

static struct delivery closed(uint32_t k)
{
    struct delivery x = {.k = k, .words = (size_t)1 << k, .proofs = proof_length(k)};
    uint32_t i;

    for (i = 0; i < k; i++)
        x.basis[i] = 1u << i;
    x.word = zeros(x.words);
    x.proof = zeros(x.proofs);
    return x;
}

static uint16_t *symbol(const struct delivery *x, struct place p)
{
    return p.in_proof ? x->proof + p.at : x->word + p.at;
}

static void open_symbol(uint16_t *at)
{
    (void)VALGRIND_MAKE_MEM_DEFINED(at, sizeof *at);
}

static void close_symbol(uint16_t *at)
{
    (void)VALGRIND_MAKE_MEM_NOACCESS(at, sizeof *at);
}

/* The errors of one call, which must give this answer: the number of reads where the coin accepts. */
static uint32_t errors_at(const char *what, const struct delivery *x, uint64_t coin, uint64_t right)
{
    unsigned before = VALGRIND_COUNT_ERRORS;
    uint64_t answer = proximity_check(65581, x->basis, x->k, 0, x->word, x->words, x->proof, x->proofs, coin);
    unsigned after = VALGRIND_COUNT_ERRORS;

    expect(what, answer == right, 1);
    return after - before;
}

/* The answer of a reject with so many reads, of which one is not 0. */
static uint64_t one_of(size_t count)
{
    uint64_t dimension = 0;

    while ((size_t)1 << dimension < count)
        dimension++;
    return 65536 + count + ((uint64_t)(count - 1) << 32) + (dimension << 48);
}

/* The checker at one coin: it reads nothing beside the positions, whether it accepts or rejects, and, where `each` is set, it reads
 * each of them. */
static void check(const char *what, const struct delivery *x, uint64_t coin, int each)
{
    struct place found[MOST];
    size_t count = positions(x->k, coin, found), i;

    for (i = 0; i < count; i++)
        open_symbol(symbol(x, found[i]));
    expect(what, errors_at(what, x, coin, count), 0);
    for (i = 0; i < count; i += count - 1) {
        *symbol(x, found[i]) = 1;
        expect(what, errors_at(what, x, coin, one_of(count)), 0);
        *symbol(x, found[i]) = 0;
    }
    for (i = 0; each && i < count; i++) {
        close_symbol(symbol(x, found[i]));
        expect(what, errors_at(what, x, coin, count) > 0, 1);
        open_symbol(symbol(x, found[i]));
    }
    for (i = 0; i < count; i++)
        close_symbol(symbol(x, found[i]));
}

/* A coin of the dimension, by a generator with a fixed seed. */
static uint64_t drawn(uint32_t k)
{
    static uint64_t state = 0x9E3779B97F4A7C15u;

    state = state * 6364136223846793005u + 1442695040888963407u;
    return state >> 20 & (((uint64_t)1 << coin_bits(k)) - 1);
}

/* Some coins of a dimension, the first and the last among them. */
static void dimension(uint32_t k)
{
    struct delivery x = closed(k);
    uint32_t i;

    check("coin 0", &x, 0, 1);
    if (k > 6) {
        check("last coin", &x, ((uint64_t)1 << coin_bits(k)) - 1, 1);
        for (i = 0; i < 40; i++)
            check("some coin", &x, drawn(k), i < 2);
    }
    free(x.word);
    free(x.proof);
}

/* Coins that take a row or a column, and then a row or a column of that. */
static void walks(uint32_t k)
{
    static const char *const names[] = {"row in a row", "column in a row", "row in a column", "column in a column"};
    struct delivery x = closed(k);
    uint32_t walk, i;

    for (walk = 0; walk < 4; walk++) {
        uint64_t column = walk / 2, second = (uint64_t)1 << (1 + (column ? h_of(k) + 2 : c_of(k)));

        for (i = 0; i < 20; i++)
            check(names[walk], &x, (drawn(k) & ~(second | 1)) | (walk % 2 ? second : 0) | column, i < 2);
    }
    free(x.word);
    free(x.proof);
}

/* Errors are seen at all: a closed symbol is read here, and an open one. */
static void seen(void)
{
    volatile uint16_t *at = zeros(1);
    unsigned before = VALGRIND_COUNT_ERRORS;

    expect("run under valgrind", RUNNING_ON_VALGRIND != 0, 1);
    expect("the closed symbol is 0", *at, 0);
    expect("errors at a closed symbol", VALGRIND_COUNT_ERRORS - before, 1);
    open_symbol((uint16_t *)at);
    expect("the open symbol is 0", *at, 0);
    expect("errors at an open symbol", VALGRIND_COUNT_ERRORS - before, 1);
    free((uint16_t *)at);
}

int main(void)
{
    uint32_t k;

    seen();
    for (k = 3; k <= 14; k++)
        dimension(k);
    for (k = 13; k <= 14; k++)
        walks(k);
    return closing();
}
