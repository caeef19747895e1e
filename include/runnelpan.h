/*
 * runnelpan.h - files for the cabinets of a garage: sealed, cut into records, and restored.
 *
 * Sealing turns a file of at most RUNNELPAN_MAX_FILE bytes into a package that can be read only whole: every block of
 * it is needed to find the key that the file was sealed under. Cutting turns a package into records, one for each of
 * n cabinets, and any k of them give the package again. So a file goes
 *
 *   runnelpan_seal: file to package          runnelpan_cut: package to the record of each cabinet
 *   runnelpan_unseal: package to file        runnelpan_join: any k records to package
 *
 * and is restored while k cabinets are left. docs/FORMATS.md has packages and records, byte for byte.
 *
 * Every call
 *   - answers a length, which is 0 or more, or a refusal's number negated, as -RUNNELPAN_OUTPUT_SHORT;
 *   - makes its checks in the order given at the call, and answers the first that fails;
 *   - writes only to the front of `out`, no further than the length that it answers, and nothing on a refusal;
 *   - allocates nothing, keeps nothing and reads nothing but what it is passed, so that several threads may call at
 *     once, each with an output of its own.
 *
 * A buffer is a pointer and a length in bytes. The pointer may be NULL where the length is 0, and is then not followed.
 * Otherwise it points to that many bytes, and `out` overlaps no other buffer of the same call.
 *
 * Link with librunnelpan.a. It needs memcpy, memmove and memset, and nothing else.
 */
#ifndef RUNNELPAN_H
#define RUNNELPAN_H

#include <stddef.h>
#include <stdint.h>

#ifdef __cplusplus
extern "C" {
#endif

/* The ciphers. A package names the one that sealed it, and unseals under no other. */
#define RUNNELPAN_AES_128 11
#define RUNNELPAN_SPECK_128 12

/* The fields. A record names the one that it was cut in, and is joined in no other. */
#define RUNNELPAN_GF256 1
#define RUNNELPAN_GF65537 2

/* The refusals. A call answers the negated number. */
#define RUNNELPAN_NO_CABINET 9        /* the cabinet's number is not below n */
#define RUNNELPAN_RECORDS_MISFIT 11   /* these are not the records of k cabinets: see runnelpan_join */
#define RUNNELPAN_SYMBOL_MISFIT 12    /* they are, and no package was cut into them: see runnelpan_join */
#define RUNNELPAN_UNKNOWN 13          /* no such cipher or field, or k and n are no plan: not 1 <= k <= n <= 16 */
#define RUNNELPAN_UNKNOWN_CIPHER 13   /* the same number, of the calls that take a cipher */
#define RUNNELPAN_FILE_TOO_LONG 14    /* the file has more than RUNNELPAN_MAX_FILE bytes */
#define RUNNELPAN_KEY_NOT_SIXTEEN 15  /* the key has not RUNNELPAN_KEY bytes */
#define RUNNELPAN_PACKAGE_MISFIT 16   /* no package has that length */
#define RUNNELPAN_CANARY_WRONG 17     /* the package was changed, or sealed by another cipher */
#define RUNNELPAN_NO_SUCH_FILE 18     /* the canary is right, and what stands before it is no file of this cipher */
#define RUNNELPAN_ISSUE_ZERO 20       /* the issue is 0, which is none */
#define RUNNELPAN_OUTPUT_SHORT 23     /* `out` is shorter than what is to be written */

/* Lengths in bytes, and the most cabinets. */
#define RUNNELPAN_KEY 16
#define RUNNELPAN_MAX_FILE 4092
#define RUNNELPAN_MIN_PACKAGE 48
#define RUNNELPAN_MAX_PACKAGE 4128
#define RUNNELPAN_MAX_RECORD 6198
#define RUNNELPAN_MAX_CABINETS 16

/* The length of the package of a file of n bytes, for n up to RUNNELPAN_MAX_FILE. */
#define RUNNELPAN_PACKAGE_LENGTH(n) (((size_t)(n) + 19) / 16 * 16 + 32)

/* The length of each record of a package of package_len bytes, any k of which are to restore it. */
#define RUNNELPAN_RECORD_LENGTH(field, package_len, k)                     \
    ((field) == RUNNELPAN_GF65537                                          \
         ? ((size_t)(package_len) / 2 + (k) - 1) / (size_t)(k) * 3 + 6     \
         : ((size_t)(package_len) + (k) - 1) / (size_t)(k) + 6)

/*
 * Seals a file.
 *
 * `key` has RUNNELPAN_KEY bytes, which the caller draws at random for this sealing alone and need not keep, since the
 * package carries it. `file` has 0 to RUNNELPAN_MAX_FILE bytes, and `out` RUNNELPAN_PACKAGE_LENGTH(file_len) or more.
 *
 * Answers the package's length, and the package stands in the front of `out`; the rest of `out` stays as it was.
 *
 * Refusals, in this order, each of which leaves all of `out` as it was:
 *   RUNNELPAN_UNKNOWN_CIPHER, RUNNELPAN_FILE_TOO_LONG, RUNNELPAN_KEY_NOT_SIXTEEN, RUNNELPAN_OUTPUT_SHORT.
 */
int64_t runnelpan_seal(uint32_t cipher, const uint8_t *key, size_t key_len, const uint8_t *file, size_t file_len,
                       uint8_t *out, size_t out_len);

/*
 * Unseals a package.
 *
 * `package` is what runnelpan_seal made with the same cipher. `out` has at least as many bytes as the file;
 * RUNNELPAN_MAX_FILE are enough for any.
 *
 * Answers the file's length, and the file stands in the front of `out`; the rest of `out` stays as it was. Where a
 * length is answered, the package is one that some key seals that very file to.
 *
 * Refusals, in this order, each of which leaves all of `out` as it was:
 *   RUNNELPAN_UNKNOWN_CIPHER, RUNNELPAN_PACKAGE_MISFIT, RUNNELPAN_CANARY_WRONG, RUNNELPAN_NO_SUCH_FILE,
 *   RUNNELPAN_OUTPUT_SHORT.
 */
int64_t runnelpan_unseal(uint32_t cipher, const uint8_t *package, size_t package_len, uint8_t *out, size_t out_len);

/*
 * Cuts the record of one cabinet from a package. It is called once for each cabinet.
 *
 * n cabinets are fitted, numbered from 0, and any k of their records are to restore the package. `package` has a
 * multiple of 16 bytes, from RUNNELPAN_MIN_PACKAGE to RUNNELPAN_MAX_PACKAGE. `issue`, from 1 on, says which writing of
 * the file the record belongs to: records are joined only with those of the same issue, so that each writing of a file
 * takes another one. `out` has RUNNELPAN_RECORD_LENGTH(field, package_len, k) bytes or more.
 *
 * Answers the record's length, and the record stands in the front of `out`; the rest of `out` stays as it was.
 *
 * Refusals, in this order, each of which leaves all of `out` as it was:
 *   RUNNELPAN_UNKNOWN, RUNNELPAN_PACKAGE_MISFIT, RUNNELPAN_NO_CABINET, RUNNELPAN_ISSUE_ZERO, RUNNELPAN_OUTPUT_SHORT.
 */
int64_t runnelpan_cut(uint32_t field, uint32_t k, uint32_t n, const uint8_t *package, size_t package_len,
                      uint32_t cabinet, uint16_t issue, uint8_t *out, size_t out_len);

/*
 * Joins a package from the records of k cabinets.
 *
 * `field`, `k` and `n` are those that the package was cut with, and `package_len` is its length. `positions` has a byte
 * for each of the k cabinets, its number, in any order and none twice. `records` has their records end to end, in the
 * order of `positions`: k times RUNNELPAN_RECORD_LENGTH(field, package_len, k) bytes. `out` has `package_len` bytes or
 * more.
 *
 * Answers `package_len`, and the package stands in the front of `out`; the rest of `out` stays as it was. Where a
 * length is answered, the records are those that runnelpan_cut makes of that very package for these cabinets, with one
 * issue. Where a record was changed, they may be those of another package, which runnelpan_unseal is there to refuse.
 *
 * Refusals, in this order, each of which leaves all of `out` as it was:
 *   RUNNELPAN_UNKNOWN, RUNNELPAN_PACKAGE_MISFIT,
 *   RUNNELPAN_RECORDS_MISFIT: `positions` has not k bytes, one of them is not below n or comes twice, `records` has not
 *     the length of k records, or the heads of the records do not name that length, this field and one issue, not 0,
 *   RUNNELPAN_SYMBOL_MISFIT: runnelpan_cut makes these records of no package of that length,
 *   RUNNELPAN_OUTPUT_SHORT.
 */
int64_t runnelpan_join(uint32_t field, uint32_t k, uint32_t n, size_t package_len, const uint8_t *positions,
                       size_t positions_len, const uint8_t *records, size_t records_len, uint8_t *out, size_t out_len);

#ifdef __cplusplus
}
#endif

#endif
