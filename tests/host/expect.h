/* What the tests of the host kit share. Each file is lent from an allocation of exactly its length, so that a read past it shows
 * under valgrind. */
#ifndef EXPECT_H
#define EXPECT_H

#include <inttypes.h>
#include <stdio.h>
#include <stdlib.h>
#include <string.h>

#include "proximity.h"

static int passed, failed;

static inline void expect(const char *what, uint32_t got, uint32_t want)
{
    if (got == want) {
        passed++;
        return;
    }
    failed++;
    printf("%s: %" PRIu32 " in place of %" PRIu32 "\n", what, got, want);
}

/* A copy of exactly this length; of no bytes it may be NULL. */
static inline uint8_t *copy_of(const uint8_t *bytes, size_t length)
{
    uint8_t *file = malloc(length);

    if (length == 0)
        return file;
    if (file == NULL)
        abort();
    memcpy(file, bytes, length);
    return file;
}

/* What the numbers of reads, degree and dimension hold before each call. */
static const uint32_t unread[3] = {77777, 88888, 99999};

/* Both checkers for one coin, without and with the degree, and what is told. */
static inline void answers(const char *what, const uint8_t *file, size_t length, uint64_t coin, uint32_t answer, const uint32_t told[3])
{
    uint32_t reads = unread[0], degree = unread[1], dimension = unread[2];

    expect(what, proximity_check_file(file, length, coin, &reads), answer);
    expect(what, reads, told[0]);
    reads = unread[0];
    expect(what, proximity_check_degree(file, length, coin, &reads, &degree, &dimension), answer);
    expect(what, reads, told[0]);
    expect(what, degree, told[1]);
    expect(what, dimension, told[2]);
}

static inline void accepts(const char *what, const uint8_t *file, size_t length, uint64_t coin, uint32_t reads)
{
    const uint32_t told[3] = {reads, 0, 0};

    answers(what, file, length, coin, PROXIMITY_ACCEPT, told);
}

/* A reject at a short word of so many dimensions, which is read whole. */
static inline void rejects(const char *what, const uint8_t *file, size_t length, uint64_t coin, uint32_t degree, uint32_t dimension)
{
    const uint32_t told[3] = {(uint32_t)1 << dimension, degree, dimension};

    answers(what, file, length, coin, PROXIMITY_REJECT, told);
}

/* A refusal leaves the numbers as they came. */
static inline void refuses(const char *what, const uint8_t *file, size_t length, uint64_t coin, uint32_t number)
{
    answers(what, file, length, coin, number, unread);
}

/* Every call refuses the file, whatever the coin. */
static inline void refused(const char *what, const uint8_t *bytes, size_t length, uint32_t number)
{
    uint8_t *file = copy_of(bytes, length);

    expect(what, proximity_file_refusal(file, length), number);
    expect(what, proximity_coin_bits(file, length), 0);
    refuses(what, file, length, 0, number);
    refuses(what, file, length, UINT64_MAX, number);
    free(file);
}

/* Every length but the right one. */
static inline void only_whole(const uint8_t *bytes, size_t length)
{
    uint8_t *longer = calloc(length + 1, 1);
    size_t cut;

    if (longer == NULL)
        abort();
    memcpy(longer, bytes, length);
    for (cut = 0; cut < length; cut++)
        refused("cut", bytes, cut, PROXIMITY_REFUSED_CUT);
    refused("a byte appended", longer, length + 1, PROXIMITY_REFUSED_COUNT);
    free(longer);
}

static inline int closing(void)
{
    printf("%d passed, %d failed\n", passed, failed);
    return failed != 0;
}

#endif
