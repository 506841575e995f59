/* Files of zeros in both forms, with the basis 1, 2, 4 and so on and the shift 0. */
#ifndef ZEROS_H
#define ZEROS_H

#include <stdint.h>
#include <stdlib.h>

static inline void put(uint8_t *at, uint32_t number, size_t bytes)
{
    for (; bytes > 0; bytes--, number >>= 8)
        *at++ = number & 0xFF;
}

struct zeros {
    uint8_t *file, *shift, *word, *proof;
    size_t length, symbol; /* a symbol of word and proof has so many bytes */
};

static inline struct zeros zeros_of(int form, uint32_t modulus, uint32_t k, uint32_t size)
{
    struct zeros z;
    uint32_t n = (uint32_t)1 << k, i;
    size_t setting = 7 + 2 * k + (form == 2 ? 2 : 0);

    z.symbol = form == 2 && modulus < 512 ? 1 : 2;
    z.length = setting + 6 + z.symbol * n + 6 + z.symbol * size;
    z.file = calloc(z.length, 1);
    if (z.file == NULL)
        abort();
    z.shift = form == 2 ? z.file + 7 + 2 * k : NULL;
    z.word = z.file + setting + 6;
    z.proof = z.word + z.symbol * n + 6;
    put(z.file, form == 2 ? 0x3253 : 0x4553, 2);
    put(z.file + 2, modulus, 4);
    put(z.file + 6, k, 1);
    for (i = 0; i < k; i++)
        put(z.file + 7 + 2 * i, (uint32_t)1 << i, 2);
    put(z.word - 6, form == 2 ? 0x3257 : 0x4F57, 2);
    put(z.word - 4, n, 4);
    put(z.proof - 6, form == 2 ? 0x3250 : 0x4650, 2);
    put(z.proof - 4, size, 4);
    return z;
}

#endif
