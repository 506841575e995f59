/* The positions of a coin, by the rule of the specification: they follow from the dimension and the coin alone. */
#ifndef POSITIONS_H
#define POSITIONS_H

#include <stddef.h>
#include <stdint.h>

/* The most positions of a coin. */
#define MOST 64

struct place {
    int in_proof;
    size_t at;
};

/* A word of dimension k >= 7 has 2^c rows of 2^(h + 3) symbols, and 2^(h + 2) columns of 2^c. */
static inline uint32_t h_of(uint32_t k)
{
    return k / 2;
}

static inline uint32_t c_of(uint32_t k)
{
    return k - k / 2;
}

static inline size_t proof_length(uint32_t k)
{
    uint32_t h = h_of(k), c = c_of(k);

    return k <= 6 ? 0 : ((size_t)7 << k) + (proof_length(h + 3) << c) + (proof_length(c) << (h + 2));
}

static inline uint32_t coin_bits(uint32_t k)
{
    uint32_t row, column;

    if (k <= 6)
        return 0;
    row = c_of(k) + coin_bits(h_of(k) + 3);
    column = h_of(k) + 2 + coin_bits(c_of(k));
    return 1 + (row > column ? row : column);
}

/* Position i of row r: one block of the row lies in the word, the seven others stand in the proof. */
static inline struct place in_row(uint32_t k, size_t r, size_t i)
{
    size_t size = (size_t)1 << h_of(k), block = i / size, absent = r < 4 ? r : 4;
    struct place p = {block != absent, i % size};

    if (block == absent)
        p.at += r * size;
    else
        p.at += (7 * r + block - (block > absent)) * size;
    return p;
}

/* The positions of a coin, and their number. Those of the row or column that it takes are moved to where the layout keeps them. */
static inline size_t positions(uint32_t k, uint64_t coin, struct place *found)
{
    size_t rows = (size_t)7 << k, row = proof_length(h_of(k) + 3), count, line, i;
    int column = coin & 1;

    if (k <= 6) {
        for (i = 0; i < (size_t)1 << k; i++)
            found[i] = (struct place){0, i};
        return i;
    }
    coin /= 2;
    if (column) {
        line = coin % ((uint64_t)4 << h_of(k));
        count = positions(c_of(k), coin >> (h_of(k) + 2), found);
    } else {
        line = coin % ((uint64_t)1 << c_of(k));
        count = positions(h_of(k) + 3, coin >> c_of(k), found);
    }
    for (i = 0; i < count; i++) {
        if (!found[i].in_proof)
            found[i] = column ? in_row(k, found[i].at, line) : in_row(k, line, found[i].at);
        else if (column)
            found[i].at += rows + (row << c_of(k)) + line * proof_length(c_of(k));
        else
            found[i].at += rows + line * row;
    }
    return count;
}

#endif
