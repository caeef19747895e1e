/*
 * How long sealing and unsealing the longest file take, as ratios that are measured in one run: with AES-128 against
 * OpenSSL's AES-128 on as many blocks as seal encrypts, and with Speck128/128 against AES-128. Each time is the best of
 * several rounds. Ends with status 1 where a ratio is above its bar.
 */
#define _POSIX_C_SOURCE 199309L

#include <stdint.h>
#include <string.h>

#ifdef WITH_OPENSSL
#include <openssl/evp.h>
#endif

#include "runnelpan.h"
#include "timing.h"

enum {
    MESSAGE_BLOCKS = (RUNNELPAN_MAX_PACKAGE - 16) / 16,
    ENCRYPTIONS = 2 * MESSAGE_BLOCKS /* one for the mask of a block, one for its hash */
};

static const uint8_t key[RUNNELPAN_KEY] = {0x2b, 0x7e, 0x15, 0x16, 0x28, 0xae, 0xd2, 0xa6,
                                           0xab, 0xf7, 0x15, 0x88, 0x09, 0xcf, 0x4f, 0x3c};

static uint8_t file[RUNNELPAN_MAX_FILE];
static uint8_t package[RUNNELPAN_MAX_PACKAGE];
static uint8_t unsealed[RUNNELPAN_MAX_FILE];

static void seal_once(uint32_t cipher)
{
    if (runnelpan_seal(cipher, key, sizeof key, file, sizeof file, package, sizeof package) != RUNNELPAN_MAX_PACKAGE) {
        fail("seal refused");
    }
}

static void unseal_once(uint32_t cipher)
{
    if (runnelpan_unseal(cipher, package, sizeof package, unsealed, sizeof unsealed) != RUNNELPAN_MAX_FILE) {
        fail("unseal refused");
    }
}

#ifdef WITH_OPENSSL
/* Encrypts as many blocks as one sealing does, in one call of the library. */
static void openssl_once(uint32_t cipher)
{
    static EVP_CIPHER_CTX *context;
    static uint8_t blocks[16 * ENCRYPTIONS], answer[16 * ENCRYPTIONS];
    int length = 0;

    (void)cipher;
    if (context == NULL) {
        context = EVP_CIPHER_CTX_new();
        if (context == NULL || EVP_EncryptInit_ex(context, EVP_aes_128_ecb(), NULL, key, NULL) != 1 ||
            EVP_CIPHER_CTX_set_padding(context, 0) != 1) {
            fail("OpenSSL gives no AES-128");
        }
    }
    if (EVP_EncryptUpdate(context, answer, &length, blocks, sizeof blocks) != 1 || length != (int)sizeof blocks) {
        fail("OpenSSL does not encrypt");
    }
}
#endif

/* The best times of one cipher. */
struct times {
    double seal, unseal;
};

static void measure(struct times *best, uint32_t cipher)
{
    best->seal = least(best->seal, round_of(seal_once, cipher));
    best->unseal = least(best->unseal, round_of(unseal_once, cipher));
    if (memcmp(file, unsealed, sizeof file) != 0) {
        fail("what was unsealed is not what was sealed");
    }
}

int main(void)
{
    struct times aes = {1e9, 1e9}, speck = {1e9, 1e9};
    double openssl = 1e9;

    for (size_t i = 0; i < sizeof file; i++) {
        file[i] = (uint8_t)(7 * i);
    }
    for (int i = 0; i < ROUNDS; i++) {
        measure(&aes, RUNNELPAN_AES_128);
#ifdef WITH_OPENSSL
        openssl = least(openssl, round_of(openssl_once, 0));
#endif
        measure(&speck, RUNNELPAN_SPECK_128);
    }

    printf("a file of %d bytes: %d message blocks, which seal encrypts %d blocks for\n", RUNNELPAN_MAX_FILE,
           MESSAGE_BLOCKS, ENCRYPTIONS);
#ifdef WITH_OPENSSL
    printf("OpenSSL encrypts as many, with %s\n",
           getenv("OPENSSL_ia32cap") != NULL ? "its AES instructions off" : "whatever instructions it finds");
#endif
    titles();
    if (openssl < 1e9) {
        line("AES-128 seal", aes.seal, "OpenSSL AES-128-ECB", openssl, 2.0);
        line("AES-128 unseal", aes.unseal, "OpenSSL AES-128-ECB", openssl, 2.0);
    } else {
        printf("%-20s %8.1f   %s\n", "AES-128 seal", aes.seal, "not compared: libssl-dev is not installed");
        printf("%-20s %8.1f   %s\n", "AES-128 unseal", aes.unseal, "not compared: libssl-dev is not installed");
    }
    line("Speck128/128 seal", speck.seal, "AES-128 seal", aes.seal, 0.5);
    line("Speck128/128 unseal", speck.unseal, "AES-128 unseal", aes.unseal, 0.5);
    return missed;
}
