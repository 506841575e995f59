/* check FILE COIN: the checker for one coin over a stored file. It prints the answer, of a reject also the degree of the short
 * word that the coin reads and its dimension; and ends with status 0 where the file is accepted at the coin, 1 where it is
 * rejected and 2 where it is refused; with 3 where there is nothing to check. */
#include <errno.h>
#include <inttypes.h>
#include <stdio.h>
#include <stdlib.h>

#include "proximity.h"
#include "read_file.h"

/* The number that a text of decimal digits writes. Returns 0 where it is none or has more than 64 bits. */
static int read_coin(const char *text, uint64_t *coin)
{
    char *end;

    if (*text < '0' || '9' < *text)
        return 0;
    errno = 0;
    *coin = strtoull(text, &end, 10);
    return *end == '\0' && errno == 0;
}

int main(int argc, char **argv)
{
    uint8_t *bytes;
    size_t length;
    uint64_t coin;
    uint32_t answer, reads = 0, degree = 0, dimension = 0;

    if (argc != 3 || !read_coin(argv[2], &coin)) {
        fprintf(stderr, "usage: check FILE COIN\n");
        return 3;
    }
    bytes = read_file(argv[1], &length);
    if (bytes == NULL) {
        fprintf(stderr, "check: cannot read %s\n", argv[1]);
        return 3;
    }
    answer = proximity_check_degree(bytes, length, coin, &reads, &degree, &dimension);
    free(bytes);
    if (answer == PROXIMITY_ACCEPT) {
        printf("accepted, %" PRIu32 " symbols read\n", reads);
        return 0;
    }
    if (answer == PROXIMITY_REJECT) {
        printf("rejected, %" PRIu32 " symbols read: degree %" PRIu32 " of %" PRIu32 " dimensions\n", reads, degree, dimension);
        return 1;
    }
    printf("refused %" PRIu32 "\n", answer);
    return 2;
}
