/* Keeps a bay map in five cabinets through runnelpan.h: seals it, cuts the record of each cabinet, and restores it from
 * three, whichever two are lost. Ends with status 1 where a call that ought to be accepted is refused. */
#include <inttypes.h>
#include <stdio.h>
#include <stdlib.h>
#include <string.h>

#include "runnelpan.h"

#define CIPHER RUNNELPAN_AES_128
#define FIELD RUNNELPAN_GF256
#define NEEDED 3
#define FITTED 5
#define ISSUE 1

static const char bay_map[] = "bay 1: ramp\nbay 2: two steps\nbay 3: ramp, sign left\n";

#define MAP_LENGTH (sizeof bay_map - 1)
#define PACKAGE_LENGTH RUNNELPAN_PACKAGE_LENGTH(MAP_LENGTH)
#define RECORD_LENGTH RUNNELPAN_RECORD_LENGTH(FIELD, PACKAGE_LENGTH, NEEDED)

/* A controller draws it at random for each sealing. */
static const uint8_t key[RUNNELPAN_KEY] = {0x2b, 0x7e, 0x15, 0x16, 0x28, 0xae, 0xd2, 0xa6,
                                           0xab, 0xf7, 0x15, 0x88, 0x09, 0xcf, 0x4f, 0x3c};

/* What the cabinets hold. */
static uint8_t cabinets[FITTED][RECORD_LENGTH];

/* The length that a call answers; a refusal ends the program. */
static size_t accepted(const char *call, int64_t answer)
{
    if (answer < 0) {
        printf("%s: refused %" PRId64 "\n", call, -answer);
        exit(1);
    }
    return (size_t)answer;
}

static void print_record(uint32_t cabinet, size_t length)
{
    printf("cabinet %" PRIu32 " holds %zu bytes:", cabinet, length);
    for (size_t i = 0; i < length; i++) {
        printf("%s%02x", i % 16 == 0 ? "\n   " : " ", cabinets[cabinet][i]);
    }
    printf("\n");
}

/* Seals the bay map, and gives each cabinet its record. */
static void put(void)
{
    uint8_t package[PACKAGE_LENGTH];
    size_t length = accepted("seal", runnelpan_seal(CIPHER, key, sizeof key, (const uint8_t *)bay_map, MAP_LENGTH,
                                                    package, sizeof package));

    printf("the bay map has %zu bytes, and sealed %zu\n", MAP_LENGTH, length);
    for (uint32_t cabinet = 0; cabinet < FITTED; cabinet++) {
        size_t record = accepted("cut", runnelpan_cut(FIELD, NEEDED, FITTED, package, length, cabinet, ISSUE,
                                                      cabinets[cabinet], RECORD_LENGTH));
        print_record(cabinet, record);
    }
}

/* Joins the package from the records of so many cabinets. */
static int64_t join(const uint8_t *positions, size_t count, uint8_t *package)
{
    uint8_t records[FITTED * RECORD_LENGTH];

    for (size_t i = 0; i < count; i++) {
        memcpy(records + i * RECORD_LENGTH, cabinets[positions[i]], RECORD_LENGTH);
    }
    return runnelpan_join(FIELD, NEEDED, FITTED, PACKAGE_LENGTH, positions, count, records, count * RECORD_LENGTH,
                          package, PACKAGE_LENGTH);
}

/* Restores the bay map from three cabinets. */
static size_t get(const uint8_t positions[NEEDED], uint8_t *file)
{
    uint8_t package[PACKAGE_LENGTH];
    size_t length = accepted("join", join(positions, NEEDED, package));

    return accepted("unseal", runnelpan_unseal(CIPHER, package, length, file, MAP_LENGTH));
}

/* Loses two cabinets, and restores the bay map from the others. */
static void lose(uint8_t one, uint8_t other)
{
    uint8_t left[NEEDED];
    uint8_t file[MAP_LENGTH];
    size_t count = 0;

    for (uint8_t cabinet = 0; cabinet < FITTED; cabinet++) {
        if (cabinet != one && cabinet != other) {
            left[count++] = cabinet;
        }
    }
    size_t length = get(left, file);
    int same = length == MAP_LENGTH && memcmp(file, bay_map, MAP_LENGTH) == 0;
    printf("cabinets %u and %u lost: %zu bytes from %u, %u and %u, %s\n", one, other, length, left[0], left[1], left[2],
           same ? "the bay map" : "which are not the bay map");
    if (!same) {
        exit(1);
    }
}

int main(void)
{
    static const uint8_t last[] = {4, 3};
    static const uint8_t unordered[NEEDED] = {4, 0, 3};
    uint8_t package[PACKAGE_LENGTH];
    uint8_t file[MAP_LENGTH];

    put();
    for (uint8_t other = 1; other < FITTED; other++) {
        for (uint8_t one = 0; one < other; one++) {
            lose(one, other);
        }
    }
    printf("cabinets 0, 1 and 2 lost: join answers %" PRId64 "\n", join(last, sizeof last, package));
    printf("from cabinets 4, 0 and 3:\n%.*s", (int)get(unordered, file), (const char *)file);
    return 0;
}
