/* The proximity proof engine for C: the checker over stored files, and the converter between their two forms.
 *
 * A file is lent as a pointer to its bytes and their number. Any bytes may be lent, at any address: what is no stored file is
 * refused by a number. A pointer may be NULL where the length beside it is 0. Both forms are taken, and the first mark of a file
 * tells its form.
 *
 * The calls read the file's bytes alone. They write nothing but *reads, *degree, *dimension, *converted and, where a file is
 * converted, all bytes of `out`. These must not lie among the file's bytes, and a refused call leaves them as they came. The
 * calls take no memory and keep nothing, so that several threads may call at once.
 *
 * Each call checks the whole file, about 0.17 ms at dimension 12 and 10 ms at dimension 14: make few calls for each file. */
#ifndef PROXIMITY_H
#define PROXIMITY_H

#include <stddef.h>
#include <stdint.h>

#ifdef __cplusplus
extern "C" {
#endif

/* Goes up where a call or a number is added. */
#define PROXIMITY_VERSION 4

/* The verdicts. */
#define PROXIMITY_ACCEPT 0u
#define PROXIMITY_REJECT 100u

/* The refusals. The calls below give 1 to 6, 8, 9, 11, 12 and 14; the others belong to calls that are not declared here.
 * Later versions may give other numbers: any answer that is no verdict is a refusal. */
#define PROXIMITY_REFUSED_MODULUS_RANGE 1u     /* the modulus is below 8 or above 131071 */
#define PROXIMITY_REFUSED_MODULUS_REDUCIBLE 2u /* the modulus is reducible */
#define PROXIMITY_REFUSED_BASIS_SIZE 3u        /* the basis has fewer than 3 or more than 14 elements */
#define PROXIMITY_REFUSED_BASIS_RANGE 4u       /* a basis element or the shift is not below 2^l, l being the degree of the
                                                * modulus */
#define PROXIMITY_REFUSED_BASIS_DEPENDENT 5u   /* the basis is dependent (a zero or a repeat included) */
#define PROXIMITY_REFUSED_LENGTH 6u            /* a lent list has another length than the setting fixes, or a file is above
                                                * its limit */
#define PROXIMITY_REFUSED_SCRATCH 7u           /* the scratch is shorter than the call takes */
#define PROXIMITY_REFUSED_COIN 8u              /* the coin is not below 2^R */
#define PROXIMITY_REFUSED_SYMBOL 9u            /* a symbol that the call reads is not below 2^l */
#define PROXIMITY_REFUSED_NO_CODEWORD 10u      /* the word given to prover or decoder is not a codeword */
#define PROXIMITY_REFUSED_CUT 11u              /* a file ends before its last record is whole, or a mark differs */
#define PROXIMITY_REFUSED_COUNT 12u            /* a count is not the one that the setting fixes, or bytes follow the last
                                                * record */
#define PROXIMITY_REFUSED_FAR 13u              /* no codeword differs from the word in at most 7/16 of its positions */
#define PROXIMITY_REFUSED_SHIFT 14u            /* a file of form 2 to be moved to form 1 has a shift other than 0 */

/* The number of the first check that refuses the file, or 0. */
uint32_t proximity_file_refusal(const uint8_t *file, size_t length);

/* The number R of coin bits of an accepted file: its coins are the numbers below 2^R. 0 where the file is refused; 0 also for
 * an accepted file of dimension 6 or less, whose one coin is 0. */
uint32_t proximity_coin_bits(const uint8_t *file, size_t length);

/* The checker for one coin: PROXIMITY_ACCEPT or PROXIMITY_REJECT, and *reads is the number of symbols read, at most 64; or the
 * number of a refusal (the file's checks, then 8), and *reads is as it came. `reads` must not be NULL. */
uint32_t proximity_check_file(const uint8_t *file, size_t length, uint64_t coin, uint32_t *reads);

/* The same, with the degree behind a reject. The coin ends at a short word of 2^m symbols, m from 3 to 6, and reads all of them.
 * On PROXIMITY_REJECT *dimension is m, and *degree the least degree of a polynomial through these symbols, between 2^(m-3) and
 * 2^m - 1; on PROXIMITY_ACCEPT both are 0. A refusal leaves all three numbers as they came. They must be three places of their
 * own, and none of `reads`, `degree` and `dimension` may be NULL. */
uint32_t proximity_check_degree(const uint8_t *file, size_t length, uint64_t coin, uint32_t *reads, uint32_t *degree,
                                uint32_t *dimension);

/* The length that the file has in the other form: 0, and *converted is that length; or the number of a refusal (the file's
 * checks, then 14), and *converted is as it came. `converted` must not be NULL. */
uint32_t proximity_converted_length(const uint8_t *file, size_t length, size_t *converted);

/* Writes the file in the other form, form 1 to form 2 with the shift 0, or form 2 to form 1. `out` has the length that the call
 * above tells. 0, and `out` holds that file; or the number of a refusal (the file's checks, then 14, then 6 for another length),
 * and `out` is as it came. There and back gives the first bytes. */
uint32_t proximity_convert(const uint8_t *file, size_t length, uint8_t *out, size_t out_length);

#ifdef __cplusplus
}
#endif

#endif
