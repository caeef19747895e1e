/* Seals and unseals a small bay map through runnelpan.h, and tries the edges of both calls. Ends at the first mismatch
 * with status 1. */
#include <inttypes.h>
#include <stdio.h>
#include <string.h>

#include "expect.h"
#include "runnelpan.h"

static const char bay_map[] = "bay 1: ramp\nbay 2: two steps\nbay 3: ramp, sign left\n";

static const uint8_t key[RUNNELPAN_KEY] = {0x2b, 0x7e, 0x15, 0x16, 0x28, 0xae, 0xd2, 0xa6,
                                           0xab, 0xf7, 0x15, 0x88, 0x09, 0xcf, 0x4f, 0x3c};

static uint8_t longest[RUNNELPAN_MAX_FILE + 1];
static uint8_t package[RUNNELPAN_MAX_PACKAGE + 16];
static uint8_t file[RUNNELPAN_MAX_FILE + 1];

static void reset(void)
{
    memset(package, UNTOUCHED, sizeof package);
    memset(file, UNTOUCHED, sizeof file);
}

/* Seals bytes into the front of `package`, of which the call may use so many. */
static int64_t seal(uint32_t cipher, const void *bytes, size_t length, size_t room)
{
    return runnelpan_seal(cipher, key, sizeof key, bytes, length, package, room);
}

/* Unseals the front of `package` into the front of `file`, of which the call may use so many. */
static int64_t unseal(uint32_t cipher, size_t length, size_t room)
{
    return runnelpan_unseal(cipher, package, length, file, room);
}

/* There and back, with room to spare on both ways and then with none. */
static void round_trip(uint32_t cipher)
{
    const size_t length = sizeof bay_map - 1;
    const size_t sealed = RUNNELPAN_PACKAGE_LENGTH(length);

    reset();
    expect("seal the bay map", seal(cipher, bay_map, length, sizeof package), (int64_t)sealed);
    expect_untouched("the output past the package", package, sealed, sizeof package);
    expect("unseal it", unseal(cipher, sealed, sizeof file), (int64_t)length);
    expect_same("what was unsealed and the bay map", file, bay_map, length);
    expect_untouched("the output past the file", file, length, sizeof file);

    reset();
    expect("seal into an output a byte too short", seal(cipher, bay_map, length, sealed - 1), -RUNNELPAN_OUTPUT_SHORT);
    expect_untouched("that output", package, 0, sizeof package);
    expect("seal into one that just fits", seal(cipher, bay_map, length, sealed), (int64_t)sealed);
    expect("unseal into an output a byte too short", unseal(cipher, sealed, length - 1), -RUNNELPAN_OUTPUT_SHORT);
    expect_untouched("that output", file, 0, sizeof file);
    expect("unseal into one that just fits", unseal(cipher, sealed, length), (int64_t)length);
    expect_same("what was unsealed and the bay map", file, bay_map, length);
}

/* Null buffers of length 0. */
static void null_buffers(uint32_t cipher)
{
    reset();
    expect("seal a null file", seal(cipher, NULL, 0, sizeof package), RUNNELPAN_MIN_PACKAGE);
    expect("unseal it into a null output", runnelpan_unseal(cipher, package, RUNNELPAN_MIN_PACKAGE, NULL, 0), 0);
    expect("seal under a null key", runnelpan_seal(cipher, NULL, 0, NULL, 0, package, sizeof package),
           -RUNNELPAN_KEY_NOT_SIXTEEN);
    expect("seal into a null output", runnelpan_seal(cipher, key, sizeof key, NULL, 0, NULL, 0),
           -RUNNELPAN_OUTPUT_SHORT);
    expect("unseal a null package", runnelpan_unseal(cipher, NULL, 0, NULL, 0), -RUNNELPAN_PACKAGE_MISFIT);
}

/* Lengths at both edges. */
static void edges(uint32_t cipher)
{
    reset();
    expect("seal 4092 bytes", seal(cipher, longest, 4092, 4128), 4128);
    expect("unseal them", unseal(cipher, 4128, 4092), 4092);
    expect_same("what was unsealed and the file", file, longest, 4092);

    reset();
    expect("seal 4093 bytes", seal(cipher, longest, 4093, sizeof package), -RUNNELPAN_FILE_TOO_LONG);
    expect("seal them under a key of 15 bytes",
           runnelpan_seal(cipher, key, 15, longest, 4093, package, sizeof package), -RUNNELPAN_FILE_TOO_LONG);
    expect("seal 4092 bytes under it into no output",
           runnelpan_seal(cipher, key, 15, longest, 4092, package, 0), -RUNNELPAN_KEY_NOT_SIXTEEN);
    expect("unseal 32 bytes", unseal(cipher, 32, sizeof file), -RUNNELPAN_PACKAGE_MISFIT);
    expect("unseal 47 bytes", unseal(cipher, 47, sizeof file), -RUNNELPAN_PACKAGE_MISFIT);
    expect("unseal 48 bytes that are no package", unseal(cipher, 48, sizeof file), -RUNNELPAN_CANARY_WRONG);
    expect("unseal 4128 bytes that are no package", unseal(cipher, 4128, sizeof file), -RUNNELPAN_CANARY_WRONG);
    expect("unseal 4144 bytes", unseal(cipher, 4144, sizeof file), -RUNNELPAN_PACKAGE_MISFIT);
    expect_untouched("the output of each seal", package, 0, sizeof package);
    expect_untouched("the output of each unseal", file, 0, sizeof file);
}

/* A bit of the package turned, and the other cipher. */
static void damage(uint32_t cipher, uint32_t other)
{
    const size_t length = sizeof bay_map - 1;
    const size_t sealed = RUNNELPAN_PACKAGE_LENGTH(length);

    reset();
    expect("seal the bay map", seal(cipher, bay_map, length, sizeof package), (int64_t)sealed);
    package[20] ^= 1;
    expect("unseal it with one bit turned", unseal(cipher, sealed, sizeof file), -RUNNELPAN_CANARY_WRONG);
    package[20] ^= 1;
    expect("unseal it with the other cipher", unseal(other, sealed, sizeof file), -RUNNELPAN_CANARY_WRONG);
    expect_untouched("the output of both", file, 0, sizeof file);
}

/* An unknown cipher is refused before anything else is looked at. */
static void unknown_cipher(uint32_t cipher)
{
    printf("cipher %" PRIu32 "\n", cipher);
    reset();
    expect("seal", seal(cipher, NULL, 0, sizeof package), -RUNNELPAN_UNKNOWN_CIPHER);
    expect("seal 4093 bytes under no key into no output", runnelpan_seal(cipher, NULL, 0, longest, 4093, NULL, 0),
           -RUNNELPAN_UNKNOWN_CIPHER);
    expect_untouched("the output", package, 0, sizeof package);
    expect("unseal", unseal(cipher, 48, sizeof file), -RUNNELPAN_UNKNOWN_CIPHER);
    expect("unseal a null package into no output", runnelpan_unseal(cipher, NULL, 0, NULL, 0),
           -RUNNELPAN_UNKNOWN_CIPHER);
    expect_untouched("the output", file, 0, sizeof file);
}

static void known_cipher(const char *name, uint32_t cipher, uint32_t other)
{
    printf("%s\n", name);
    round_trip(cipher);
    null_buffers(cipher);
    edges(cipher);
    damage(cipher, other);
}

int main(void)
{
    static const uint32_t unknown[] = {0, 10, 13, 11 + 256, 12 + 65536, UINT32_MAX};

    for (size_t i = 0; i < sizeof longest; i++) {
        longest[i] = (uint8_t)(7 * i);
    }
    known_cipher("AES-128", RUNNELPAN_AES_128, RUNNELPAN_SPECK_128);
    known_cipher("Speck128/128", RUNNELPAN_SPECK_128, RUNNELPAN_AES_128);
    for (size_t i = 0; i < sizeof unknown / sizeof unknown[0]; i++) {
        unknown_cipher(unknown[i]);
    }
    printf("all as expected\n");
    return 0;
}
