/*
 * How long cutting a package and joining it again take, with k 8, n 16 and the longest package, as ratios that are
 * measured in one run: in GF(256) against zfec, Jerasure and ISA-L on the same 8 blocks, and in GF(65537) against
 * GF(256). Cutting makes the records of cabinets 8 to 15, and joining takes those. Each time is the best of several
 * rounds. Ends with status 1 where a ratio is above its bar; a peer that multiplies by SIMD instructions which not every
 * x86-64 has is shown and not judged, since the library is compiled for every one.
 *
 * A coding matrix, and ISA-L's tables of it, are made before the time is taken. What decoding needs to be worked out
 * for the blocks that are left is timed.
 */
#define _GNU_SOURCE

#include <dlfcn.h>
#include <stdint.h>
#include <string.h>

#ifdef WITH_ISAL
#include <isa-l/erasure_code.h>
#endif
#ifdef WITH_JERASURE
#include <gf_complete.h>
#include <jerasure.h>
#include <jerasure/reed_sol.h>
#endif

#include "runnelpan.h"
#include "timing.h"

enum {
    K = 8,
    N = 16,
    M = N - K,
    PACKAGE = 4128,
    BLOCK = PACKAGE / K,
    STRIDE = 576, /* from block to block: Jerasure takes them at like places in 16 bytes */
    MAX_SLICES = 6400,
    MAX_RECORD = 6 + MAX_SLICES / K
};

/* The calls of crate benchcalls. A slice is a pointer and a length. */
size_t bench_spread(uint32_t field, size_t k, size_t n, const uint8_t *package, size_t package_len, uint8_t *slices,
                    size_t slices_len);
size_t bench_cut(uint32_t field, size_t k, size_t n, size_t bytes, const uint8_t *slices, size_t slices_len,
                 size_t cabinet, uint8_t *out, size_t out_len);

static uint8_t package[PACKAGE];
static uint8_t joined[PACKAGE];
static uint8_t records[M * MAX_RECORD];
static size_t records_len;

static void cut_once(uint32_t field)
{
    static uint8_t slices[MAX_SLICES];
    size_t length = bench_spread(field, K, N, package, sizeof package, slices, sizeof slices);

    records_len = 0;
    for (size_t i = K; i < N; i++) {
        records_len += bench_cut(field, K, N, PACKAGE, slices, length, i, records + records_len,
                                 sizeof records - records_len);
    }
}

static void join_once(uint32_t field)
{
    static const uint8_t positions[M] = {8, 9, 10, 11, 12, 13, 14, 15};

    if (runnelpan_join(field, K, N, PACKAGE, positions, sizeof positions, records, records_len, joined,
                       sizeof joined) != PACKAGE) {
        fail("join refused");
    }
}

/* The blocks of a peer: the package in K of them, what is made of it, and what is decoded again. */
__attribute__((aligned(64))) static uint8_t blocks[K][STRIDE], made[M][STRIDE], decoded[K][STRIDE];
static uint8_t *block_at[K], *made_at[M], *decoded_at[K];

static void spread_blocks(void)
{
    for (int i = 0; i < K; i++) {
        block_at[i] = blocks[i];
        decoded_at[i] = decoded[i];
        for (int j = 0; j < BLOCK; j++) {
            blocks[i][j] = package[j * K + i];
        }
    }
    for (int i = 0; i < M; i++) {
        made_at[i] = made[i];
    }
}

/*
 * zfec's C code stands in the module of its Python package. The names of Python's that the module asks for stand in
 * build/python.c, which the Makefile writes; nothing that is called below uses them.
 */
static void *zfec;
static void (*zfec_encode)(const void *, const uint8_t *const *, uint8_t *const *, const unsigned *, size_t, size_t);
static void (*zfec_decode)(const void *, const uint8_t *const *, uint8_t *const *, const unsigned *, size_t);
static const unsigned zfec_numbers[M] = {8, 9, 10, 11, 12, 13, 14, 15};

static int zfec_found(void)
{
#ifdef ZFEC
    void *module = dlopen(ZFEC, RTLD_LAZY);
    void *(*make)(unsigned short, unsigned short);

    if (module == NULL) {
        fail(dlerror());
    }
    *(void **)&make = dlsym(module, "fec_new");
    *(void **)&zfec_encode = dlsym(module, "fec_encode");
    *(void **)&zfec_decode = dlsym(module, "fec_decode");
    if (make == NULL || zfec_encode == NULL || zfec_decode == NULL) {
        fail("zfec's module has not the C functions");
    }
    zfec = make(K, N);
#endif
    return zfec != NULL;
}

static void zfec_encode_once(uint32_t unused)
{
    (void)unused;
    zfec_encode(zfec, (const uint8_t *const *)block_at, made_at, zfec_numbers, M, BLOCK);
}

static void zfec_decode_once(uint32_t unused)
{
    (void)unused;
    zfec_decode(zfec, (const uint8_t *const *)made_at, decoded_at, zfec_numbers, BLOCK);
}

#ifdef WITH_JERASURE
static int *jerasure_matrix;

/* Has Jerasure multiply by the processor's shuffles, as it does by itself, or by its tables alone. */
static void jerasure_by(int shuffles)
{
    static gf_t fields[2];
    gf_t *field = &fields[shuffles];

    if (!(shuffles ? gf_init_easy(field, 8)
                   : gf_init_hard(field, 8, GF_MULT_SPLIT_TABLE, GF_REGION_NOSIMD, GF_DIVIDE_DEFAULT, 0, 8, 4, NULL,
                                  NULL))) {
        fail("Jerasure gives no GF(256)");
    }
    galois_change_technique(field, 8);
}

static void jerasure_encode_once(uint32_t unused)
{
    (void)unused;
    jerasure_matrix_encode(K, M, 8, jerasure_matrix, (char **)block_at, (char **)made_at, BLOCK);
}

static void jerasure_decode_once(uint32_t unused)
{
    int erasures[K + 1] = {0, 1, 2, 3, 4, 5, 6, 7, -1};

    (void)unused;
    if (jerasure_matrix_decode(K, M, 8, jerasure_matrix, 1, erasures, (char **)decoded_at, (char **)made_at, BLOCK) !=
        0) {
        fail("Jerasure does not decode");
    }
}
#endif

#ifdef WITH_ISAL
static uint8_t isal_matrix[N * K], isal_tables[32 * K * M];

typedef void isal_call(int, int, int, unsigned char *, unsigned char **, unsigned char **);

static isal_call *const isal_calls[] = {ec_encode_data, ec_encode_data_base};

static void isal_encode_once(uint32_t which)
{
    isal_calls[which](BLOCK, K, M, isal_tables, block_at, made_at);
}

static void isal_decode_once(uint32_t which)
{
    static uint8_t left[K * K], inverted[K * K], tables[32 * K * K];

    memcpy(left, isal_matrix + K * K, sizeof left);
    if (gf_invert_matrix(left, inverted, K) != 0) {
        fail("ISA-L does not invert");
    }
    ec_init_tables(K, K, inverted, tables);
    isal_calls[which](BLOCK, K, K, tables, made_at, decoded_at);
}
#endif

/* The best times of one coder: of making eight records or blocks, and of restoring the package from those. */
struct times {
    double cut, join;
};

/*
 * ISA-L leaves the upper halves of the vector registers in use, which slows all code after it that has the plain SSE
 * instructions, such as Jerasure's and the library's.
 */
static void clear_upper_halves(void)
{
#ifdef __x86_64__
    if (__builtin_cpu_supports("avx")) {
        __asm__ volatile("vzeroupper");
    }
#endif
}

static void measure(struct times *best, void (*cut)(uint32_t), void (*join)(uint32_t), uint32_t which)
{
    clear_upper_halves();
    best->cut = least(best->cut, round_of(cut, which));
    clear_upper_halves();
    best->join = least(best->join, round_of(join, which));
}

static void measure_ours(struct times *best, uint32_t field)
{
    memset(joined, 0, sizeof joined);
    measure(best, cut_once, join_once, field);
    if (memcmp(package, joined, sizeof package) != 0) {
        fail("what was joined is not what was cut");
    }
}

static void measure_peer(struct times *best, void (*encode)(uint32_t), void (*decode)(uint32_t), uint32_t which)
{
    memset(decoded, 0, sizeof decoded);
    measure(best, encode, decode, which);
    if (memcmp(blocks, decoded, sizeof blocks) != 0) {
        fail("a peer did not decode what it encoded");
    }
}

static void lines(const struct times *ours, const char *encode, const char *decode, const struct times *peer,
                  double cut_bar, double join_bar)
{
    line("GF(256) cut", ours->cut, encode, peer->cut, cut_bar);
    line("GF(256) join", ours->join, decode, peer->join, join_bar);
}

static void lacking(const struct times *ours, const char *peer)
{
    printf("%-20s %8.1f   not compared: %s is not installed\n", "GF(256) cut", ours->cut, peer);
    printf("%-20s %8.1f   not compared: %s is not installed\n", "GF(256) join", ours->join, peer);
}

int main(void)
{
    struct times ours = {1e9, 1e9}, prime = {1e9, 1e9}, zfec_times = {1e9, 1e9};
    int with_zfec = zfec_found();
#ifdef WITH_JERASURE
    struct times jerasure = {1e9, 1e9}, jerasure_plain = {1e9, 1e9};
    jerasure_matrix = reed_sol_vandermonde_coding_matrix(K, M, 8);
#endif
#ifdef WITH_ISAL
    struct times isal = {1e9, 1e9}, isal_base = {1e9, 1e9};
    gf_gen_cauchy1_matrix(isal_matrix, N, K);
    ec_init_tables(K, M, isal_matrix + K * K, isal_tables);
#endif

    for (int i = 0; i < PACKAGE; i++) {
        package[i] = (uint8_t)(i * 7 + i / 256);
    }
    spread_blocks();
    for (int i = 0; i < ROUNDS; i++) {
        measure_ours(&ours, RUNNELPAN_GF256);
        if (with_zfec) {
            measure_peer(&zfec_times, zfec_encode_once, zfec_decode_once, 0);
        }
#ifdef WITH_JERASURE
        jerasure_by(1);
        measure_peer(&jerasure, jerasure_encode_once, jerasure_decode_once, 0);
        jerasure_by(0);
        measure_peer(&jerasure_plain, jerasure_encode_once, jerasure_decode_once, 0);
#endif
#ifdef WITH_ISAL
        measure_peer(&isal, isal_encode_once, isal_decode_once, 0);
        measure_peer(&isal_base, isal_encode_once, isal_decode_once, 1);
#endif
        measure_ours(&prime, RUNNELPAN_GF65537);
    }

    printf("\na package of %d bytes, k %d, n %d: the records of cabinets %d to %d, and the package from those\n", PACKAGE, K,
           N, K, N - 1);
    titles();
    if (with_zfec) {
        lines(&ours, "zfec encode", "zfec decode", &zfec_times, 0.5, 1.0);
    } else {
        lacking(&ours, "python3-zfec");
    }
#ifdef WITH_JERASURE
    lines(&ours, "Jerasure encode, no SIMD", "Jerasure decode, no SIMD", &jerasure_plain, 1.0, 0);
    lines(&ours, "Jerasure encode", "Jerasure decode", &jerasure, 0, 0);
#else
    lacking(&ours, "libjerasure-dev");
#endif
#ifdef WITH_ISAL
    lines(&ours, "ISA-L encode", "ISA-L decode", &isal, 0, 0);
    lines(&ours, "ISA-L encode, base C", "ISA-L decode, base C", &isal_base, 0, 0);
#else
    lacking(&ours, "libisal-dev");
#endif
    line("GF(65537) cut", prime.cut, "GF(256) cut", ours.cut, 4.0);
    line("GF(65537) join", prime.join, "GF(256) join", ours.join, 4.0);
    return missed;
}
