/* Cuts packages and joins their records through runnelpan.h, and tries the edges of both calls. Ends at the first
 * mismatch with status 1. */
#include <inttypes.h>
#include <stdio.h>
#include <string.h>

#include "expect.h"
#include "runnelpan.h"

#define ISSUE 7

struct plan {
    uint32_t field, k, n;
};

static uint8_t package[RUNNELPAN_MAX_PACKAGE + 16];
static uint8_t record[RUNNELPAN_MAX_RECORD + 1];
static uint8_t joined[RUNNELPAN_MAX_PACKAGE + 16];

/* Records end to end, and the cabinets that they are of. */
static uint8_t records[RUNNELPAN_MAX_CABINETS * RUNNELPAN_MAX_RECORD];
static uint8_t positions[RUNNELPAN_MAX_CABINETS];

static void reset(void)
{
    memset(record, UNTOUCHED, sizeof record);
    memset(joined, UNTOUCHED, sizeof joined);
}

static size_t record_length(struct plan p, size_t length)
{
    return RUNNELPAN_RECORD_LENGTH(p.field, length, p.k);
}

/* Cuts from the front of `package` into the front of `record`, of which the call may use so many bytes. */
static int64_t cut(struct plan p, size_t length, uint32_t cabinet, uint16_t issue, size_t room)
{
    return runnelpan_cut(p.field, p.k, p.n, package, length, cabinet, issue, record, room);
}

/* Joins k records into the front of `joined`, of which the call may use so many bytes. */
static int64_t join(struct plan p, size_t length, size_t room)
{
    return runnelpan_join(p.field, p.k, p.n, length, positions, p.k, records, p.k * record_length(p, length), joined,
                          room);
}

/* Cuts the record of a cabinet to be joined, at place i. */
static void take(struct plan p, size_t length, size_t i, uint8_t cabinet, uint16_t issue)
{
    const size_t whole = record_length(p, length);

    positions[i] = cabinet;
    if (runnelpan_cut(p.field, p.k, p.n, package, length, cabinet, issue, records + i * whole, whole) !=
        (int64_t)whole) {
        printf("mismatch: cabinet %u was not cut\n", cabinet);
        exit(1);
    }
}

static void take_first(struct plan p, size_t length)
{
    for (uint8_t i = 0; i < p.k; i++) {
        take(p, length, i, i, ISSUE);
    }
}

static void take_last(struct plan p, size_t length)
{
    for (uint8_t i = 0; i < p.k; i++) {
        take(p, length, i, (uint8_t)(p.n - 1 - i), ISSUE);
    }
}

/* There and back with room to spare, with none, and with a byte too little. */
static void round_trip(struct plan p, size_t length)
{
    const size_t whole = record_length(p, length);

    printf(" %" PRIu32 " of %" PRIu32 ", a package of %zu bytes\n", p.k, p.n, length);
    reset();
    expect("cut into an output a byte too short", cut(p, length, p.n - 1, ISSUE, whole - 1), -RUNNELPAN_OUTPUT_SHORT);
    expect_untouched("that output", record, 0, sizeof record);
    expect("cut into one that just fits", cut(p, length, p.n - 1, ISSUE, whole), (int64_t)whole);
    expect("cut into a longer one", cut(p, length, p.n - 1, ISSUE, sizeof record), (int64_t)whole);
    expect_untouched("the output past the record", record, whole, sizeof record);

    take_last(p, length);
    expect_same("that record and the first to be joined", record, records, whole);
    expect("join into an output a byte too short", join(p, length, length - 1), -RUNNELPAN_OUTPUT_SHORT);
    expect_untouched("that output", joined, 0, sizeof joined);
    expect("join into one that just fits", join(p, length, length), (int64_t)length);
    expect("join into a longer one", join(p, length, sizeof joined), (int64_t)length);
    expect_same("what was joined and the package", joined, package, length);
    expect_untouched("the output past the package", joined, length, sizeof joined);
}

/* Lengths that no package has. */
static void lengths(struct plan p)
{
    static const size_t misfits[] = {0, 32, 47, 49, 4127, 4129, 4144, SIZE_MAX};

    reset();
    for (size_t i = 0; i < sizeof misfits / sizeof misfits[0]; i++) {
        printf("  a length of %zu\n", misfits[i]);
        if (misfits[i] <= sizeof package) {
            expect("cut", cut(p, misfits[i], 0, ISSUE, sizeof record), -RUNNELPAN_PACKAGE_MISFIT);
        }
        expect("join",
               runnelpan_join(p.field, p.k, p.n, misfits[i], positions, p.k, records, sizeof records, joined,
                              sizeof joined),
               -RUNNELPAN_PACKAGE_MISFIT);
    }
    expect_untouched("the output of each cut", record, 0, sizeof record);
    expect_untouched("the output of each join", joined, 0, sizeof joined);
}

/* Null buffers of length 0. */
static void null_buffers(struct plan p)
{
    const size_t all = p.k * record_length(p, 48);

    reset();
    take_first(p, 48);
    expect("cut a null package", runnelpan_cut(p.field, p.k, p.n, NULL, 0, 0, ISSUE, record, sizeof record),
           -RUNNELPAN_PACKAGE_MISFIT);
    expect("cut into a null output", runnelpan_cut(p.field, p.k, p.n, package, 48, 0, ISSUE, NULL, 0),
           -RUNNELPAN_OUTPUT_SHORT);
    expect("join null positions",
           runnelpan_join(p.field, p.k, p.n, 48, NULL, 0, records, all, joined, sizeof joined),
           -RUNNELPAN_RECORDS_MISFIT);
    expect("join null records",
           runnelpan_join(p.field, p.k, p.n, 48, positions, p.k, NULL, 0, joined, sizeof joined),
           -RUNNELPAN_RECORDS_MISFIT);
    expect("join into a null output",
           runnelpan_join(p.field, p.k, p.n, 48, positions, p.k, records, all, NULL, 0), -RUNNELPAN_OUTPUT_SHORT);
    expect_untouched("the output of each cut", record, 0, sizeof record);
    expect_untouched("the output of each join", joined, 0, sizeof joined);
}

/* The refusals of cut, each before those that would follow it. */
static void cut_refusals(struct plan p)
{
    reset();
    expect("cut 32 bytes for cabinet n, issue 0, into no output", cut(p, 32, p.n, 0, 0), -RUNNELPAN_PACKAGE_MISFIT);
    expect("cut 48 bytes for cabinet n, issue 0, into no output", cut(p, 48, p.n, 0, 0), -RUNNELPAN_NO_CABINET);
    expect("cut for cabinet n - 1, issue 0, into no output", cut(p, 48, p.n - 1, 0, 0), -RUNNELPAN_ISSUE_ZERO);
    expect("cut for cabinet n - 1, issue 1, into no output", cut(p, 48, p.n - 1, 1, 0), -RUNNELPAN_OUTPUT_SHORT);
    expect("cut for cabinet n", cut(p, 48, p.n, ISSUE, sizeof record), -RUNNELPAN_NO_CABINET);
    expect("cut for cabinet 256", cut(p, 48, 256, ISSUE, sizeof record), -RUNNELPAN_NO_CABINET);
    expect("cut for cabinet 4294967295", cut(p, 48, UINT32_MAX, ISSUE, sizeof record), -RUNNELPAN_NO_CABINET);
    expect("cut for issue 0", cut(p, 48, 0, 0, sizeof record), -RUNNELPAN_ISSUE_ZERO);
    expect_untouched("the output of each", record, 0, sizeof record);
    expect("cut for issue 65535", cut(p, 48, 0, UINT16_MAX, sizeof record), (int64_t)record_length(p, 48));
}

/* Positions that are not those of k fitted cabinets. */
static void other_positions(struct plan p)
{
    const size_t all = p.k * record_length(p, 48);

    reset();
    take_first(p, 48);
    positions[p.k - 1] = 0;
    expect("join with a position that comes twice", join(p, 48, sizeof joined), -RUNNELPAN_RECORDS_MISFIT);
    positions[p.k - 1] = (uint8_t)p.n;
    expect("join with position n", join(p, 48, sizeof joined), -RUNNELPAN_RECORDS_MISFIT);
    expect("join it into no output", join(p, 48, 0), -RUNNELPAN_RECORDS_MISFIT);
    positions[p.k - 1] = 255;
    expect("join with position 255", join(p, 48, sizeof joined), -RUNNELPAN_RECORDS_MISFIT);
    take_first(p, 48);
    positions[p.k] = (uint8_t)p.k;
    expect("join with a position too few",
           runnelpan_join(p.field, p.k, p.n, 48, positions, p.k - 1, records, all, joined, sizeof joined),
           -RUNNELPAN_RECORDS_MISFIT);
    expect("join with a position too many",
           runnelpan_join(p.field, p.k, p.n, 48, positions, p.k + 1, records, all, joined, sizeof joined),
           -RUNNELPAN_RECORDS_MISFIT);
    expect_untouched("the output of each", joined, 0, sizeof joined);
}

/* Bytes that are not the records of k cabinets. */
static void other_records(struct plan p, uint32_t other_field)
{
    const size_t whole = record_length(p, 48);
    const size_t all = p.k * whole;

    reset();
    take_first(p, 48);
    expect("join a record too few",
           runnelpan_join(p.field, p.k, p.n, 48, positions, p.k, records, all - whole, joined, sizeof joined),
           -RUNNELPAN_RECORDS_MISFIT);
    expect("join a byte too few",
           runnelpan_join(p.field, p.k, p.n, 48, positions, p.k, records, all - 1, joined, sizeof joined),
           -RUNNELPAN_RECORDS_MISFIT);
    take(p, 48, p.k - 1, (uint8_t)(p.k - 1), ISSUE + 1);
    expect("join records of two issues", join(p, 48, sizeof joined), -RUNNELPAN_RECORDS_MISFIT);
    take_first(p, 48);
    records[0] ^= 1;
    expect("join a record of another length", join(p, 48, sizeof joined), -RUNNELPAN_RECORDS_MISFIT);
    records[0] ^= 1;
    records[whole + 2] = (uint8_t)other_field;
    expect("join a record of the other field", join(p, 48, sizeof joined), -RUNNELPAN_RECORDS_MISFIT);
    take_first(p, 48);
    for (size_t i = 0; i < p.k; i++) {
        records[i * whole + 4] = 0;
    }
    expect("join records of issue 0", join(p, 48, sizeof joined), -RUNNELPAN_RECORDS_MISFIT);
    expect_untouched("the output of each", joined, 0, sizeof joined);
}

/* Records with the right heads that no package was cut into: five make columns of five, which 48 bytes do not fill. */
static void no_package(struct plan p)
{
    const size_t whole = record_length(p, 48);

    reset();
    take_first(p, 48);
    records[p.k * whole - 1] = 1;
    expect("join with a symbol past the package's end", join(p, 48, sizeof joined), -RUNNELPAN_SYMBOL_MISFIT);
    expect("join it into no output", join(p, 48, 0), -RUNNELPAN_SYMBOL_MISFIT);
    if (p.field == RUNNELPAN_GF65537) {
        take_first(p, 48);
        memcpy(records + 6, "\x00\x00\x01", 3);
        expect("join with a symbol 65536", join(p, 48, sizeof joined), -RUNNELPAN_SYMBOL_MISFIT);
        memcpy(records + 6, "\x01\x00\x01", 3);
        expect("join with a stored number 65537", join(p, 48, sizeof joined), -RUNNELPAN_SYMBOL_MISFIT);
        memcpy(records + 6, "\xff\xff\xff", 3);
        expect("join with a stored number 16777215", join(p, 48, sizeof joined), -RUNNELPAN_SYMBOL_MISFIT);
    }
    expect_untouched("the output of each", joined, 0, sizeof joined);
}

/* A byte changed in a record where it makes the record of another package. */
static void other_package(struct plan p)
{
    reset();
    take_first(p, 48);
    records[6] ^= 1;
    package[0] ^= 1;
    expect("join with a data byte changed", join(p, 48, sizeof joined), 48);
    expect_same("what was joined and the package with it changed", joined, package, 48);
    package[0] ^= 1;
}

/* An unknown field and a pair k, n that is no plan are refused before anything else is looked at. */
static void unknown(uint32_t field, uint32_t k, uint32_t n)
{
    printf("field %" PRIu32 ", %" PRIu32 " of %" PRIu32 "\n", field, k, n);
    reset();
    expect("cut", runnelpan_cut(field, k, n, package, 48, 0, ISSUE, record, sizeof record), -RUNNELPAN_UNKNOWN);
    expect("cut a null package for issue 0 into no output", runnelpan_cut(field, k, n, NULL, 0, 0, 0, NULL, 0),
           -RUNNELPAN_UNKNOWN);
    expect("join", runnelpan_join(field, k, n, 48, positions, 5, records, 5 * 16, joined, sizeof joined),
           -RUNNELPAN_UNKNOWN);
    expect("join nothing into no output", runnelpan_join(field, k, n, 0, NULL, 0, NULL, 0, NULL, 0),
           -RUNNELPAN_UNKNOWN);
    expect_untouched("the output of cut", record, 0, sizeof record);
    expect_untouched("the output of join", joined, 0, sizeof joined);
}

static void known_field(const char *name, uint32_t field, uint32_t other)
{
    static const struct plan plans[] = {{0, 1, 1}, {0, 1, 16}, {0, 5, 8}, {0, 16, 16}};
    const struct plan five = {field, 5, 8};

    printf("%s\n", name);
    for (size_t i = 0; i < sizeof plans / sizeof plans[0]; i++) {
        const struct plan p = {field, plans[i].k, plans[i].n};
        round_trip(p, 48);
        round_trip(p, 4128);
    }
    printf(" 5 of 8\n");
    lengths(five);
    null_buffers(five);
    cut_refusals(five);
    other_positions(five);
    other_records(five, other);
    no_package(five);
    other_package(five);
}

static void unknown_fields(void)
{
    static const uint32_t fields[] = {0, 3, 256 + 1, 65536 + 2, UINT32_MAX};

    for (size_t i = 0; i < sizeof fields / sizeof fields[0]; i++) {
        unknown(fields[i], 5, 8);
    }
}

static void no_plans(uint32_t field)
{
    static const uint32_t pairs[][2] = {{0, 0}, {0, 1}, {2, 1}, {16, 17}, {17, 17}, {1, UINT32_MAX}, {UINT32_MAX, 16}};

    for (size_t i = 0; i < sizeof pairs / sizeof pairs[0]; i++) {
        unknown(field, pairs[i][0], pairs[i][1]);
    }
}

int main(void)
{
    for (size_t i = 0; i < sizeof package; i++) {
        package[i] = (uint8_t)(7 * i + 3);
    }
    known_field("GF(256)", RUNNELPAN_GF256, RUNNELPAN_GF65537);
    known_field("GF(65537)", RUNNELPAN_GF65537, RUNNELPAN_GF256);
    unknown_fields();
    no_plans(RUNNELPAN_GF256);
    no_plans(RUNNELPAN_GF65537);
    printf("all as expected\n");
    return 0;
}
