// The kernels of crates/cod_kernel beside ISA-L's and memcpy, in one process: the rows of an operation alternate, each begins with
// vzeroupper, and the fastest round counts. Every outcome is checked byte by byte first.
//
// kernel_for_c.txt is a static library over cod_kernel: make a crate of it (`kernel_for_c staticlib: cod_kernel` in crates.txt, the
// text as src/lib.rt), run `rt lib` in its folder, and then
//
//     gcc -O2 kernels.c out/libkernel_for_c.a KIT/c/libos_c.a KIT/c/liblibc_c.a -lisal -o kernels && ./kernels 60
#include <isa-l/erasure_code.h>
#include <stdint.h>
#include <stdio.h>
#include <stdlib.h>
#include <string.h>
#include <time.h>

typedef uint8_t u8;

void k_mad(u8 *, size_t, u8, const u8 *, size_t);
void k_mad2(u8 *, size_t, u8, u8 *, size_t, u8, const u8 *, size_t);
void k_set4(u8 *, size_t, u8, u8, u8, u8, const u8 *, size_t, const u8 *, size_t, const u8 *, size_t, const u8 *, size_t);
void k_enc(u8 *, size_t, u8, u8, u8, u8, u8 *, size_t, u8, u8, u8, u8, const u8 *, size_t, const u8 *, size_t, const u8 *, size_t,
           const u8 *, size_t);

static u8 *src[4], *par[2], one[256][32], to_one[128], to_two[256];
static const u8 C[4] = {0xb7, 0x1c, 0x8e, 0xf4}, D[4] = {0x1c, 0x1b, 0x14, 0x12};
static int len;
static unsigned turn;

// a scalar that varies, since a constant one would be folded into the kernel
static u8 scalar(void) { return turn++ * 37 + 2; }

static void copy_one(void) { memcpy(par[0], src[0], len); }
static void mad_sse(void) { gf_vect_mad_sse(len, 1, 0, one[scalar()], src[0], par[0]); }
static void mad_avx2(void) { gf_vect_mad_avx2(len, 1, 0, one[scalar()], src[0], par[0]); }
static void mad_ours(void) { k_mad(par[0], len, scalar(), src[0], len); }

static void copy_four(void) {
    for (int j = 0; j < 4; j++) {
        memcpy(par[0], src[j], len);
        __asm__ volatile("" ::: "memory");
    }
}
static void decode_sse(void) { ec_encode_data_sse(len, 4, 1, to_one, src, par); }
static void decode_avx2(void) { ec_encode_data_avx2(len, 4, 1, to_one, src, par); }
static void decode_ours(void) {
    k_set4(par[0], len, C[0], C[1], C[2], C[3], src[0], len, src[1], len, src[2], len, src[3], len);
}

static void encode_sse(void) { ec_encode_data_sse(len, 4, 2, to_two, src, par); }
static void encode_avx2(void) { ec_encode_data_avx2(len, 4, 2, to_two, src, par); }
static void encode_ours(void) {
    k_enc(par[0], len, C[0], C[1], C[2], C[3], par[1], len, D[0], D[1], D[2], D[3], src[0], len, src[1], len, src[2], len, src[3], len);
}

static void copy_two(void) {
    for (int i = 0; i < 2; i++) {
        memcpy(par[i], src[0], len);
        __asm__ volatile("" ::: "memory");
    }
}
static void delta_sse(void) { ec_encode_data_update_sse(len, 4, 2, 1, to_two, src[0], par); }
static void delta_avx2(void) { ec_encode_data_update_avx2(len, 4, 2, 1, to_two, src[0], par); }
static void delta_ours(void) { k_mad2(par[0], len, C[1], par[1], len, D[1], src[0], len); }

static const struct { const char *name; void (*forms[4])(void); } operations[] = {
    {"one source added", {copy_one, mad_sse, mad_avx2, mad_ours}},
    {"decode 4 to 1", {copy_four, decode_sse, decode_avx2, decode_ours}},
    {"encode 4 to 2", {copy_four, encode_sse, encode_avx2, encode_ours}},
    {"a delta into two", {copy_two, delta_sse, delta_avx2, delta_ours}},
};

static double now(void) {
    struct timespec t;
    clock_gettime(CLOCK_MONOTONIC, &t);
    return t.tv_sec * 1e9 + t.tv_nsec;
}

static double timed(void (*form)(void)) {
    __asm__ volatile("vzeroupper" ::: "memory");
    form();
    double start = now();
    form();
    double about = now() - start;
    long repeats = 2e5 / (about < 20 ? 20 : about) + 1;
    start = now();
    for (long r = 0; r < repeats; r++) form();
    return (now() - start) / repeats;
}

static u8 product(u8 a, u8 b) {
    u8 r = 0;
    for (; b; b >>= 1, a = a << 1 ^ (a >> 7) * 0x1d) r ^= b & 1 ? a : 0;
    return r;
}

static void check(void) {
    encode_ours();
    for (int x = 0; x < len; x++) {
        u8 a = 0, b = 0;
        for (int j = 0; j < 4; j++) a ^= product(C[j], src[j][x]), b ^= product(D[j], src[j][x]);
        if (par[0][x] != a || par[1][x] != b) puts("wrong"), exit(1);
    }
}

int main(int argc, char **argv) {
    int rounds = argc > 1 ? atoi(argv[1]) : 20, lens[] = {16, 64, 1000, 4096, 65536, 1 << 20};
    u8 m[8];
    for (int c = 0; c < 256; c++) gf_vect_mul_init(c, one[c]);
    memcpy(m, C, 4), memcpy(m + 4, D, 4);
    ec_init_tables(4, 1, m, to_one), ec_init_tables(4, 2, m, to_two);
    for (int l = 0; l < 6; l++) {
        len = lens[l];
        for (int j = 0; j < 6; j++) {
            u8 *bytes = (u8 *)aligned_alloc(64, (len + 4096 + 63) / 64 * 64) + 64 * (j * 3 + 1);
            for (int i = 0; i < len; i++) bytes[i] = rand() >> 7;
            if (j < 4) src[j] = bytes; else par[j - 4] = bytes;
        }
        check();
        for (int o = 0; o < 4; o++) {
            double best[4] = {1e18, 1e18, 1e18, 1e18};
            for (int r = 0; r < rounds; r++)
                for (int f = 0; f < 4; f++) {
                    double t = timed(operations[o].forms[f]);
                    if (t < best[f]) best[f] = t;
                }
            printf("%-17s %7d B  %9.1f ns  over memcpy %.2f, ISA-L sse %.2f, avx2 %.2f\n", operations[o].name, len, best[3], best[0] / best[3],
                   best[1] / best[3], best[2] / best[3]);
        }
    }
}
