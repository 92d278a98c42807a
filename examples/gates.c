/* Encrypted bits through every gate: makes keys from the system's random source, encrypts, evaluates, decrypts and prints the truth tables.
 *
 *   gates [128]     a practice set by default; with 128 the published 128-bit set, which takes minutes
 *
 * The noise here is a few units of 2^-32 for the practice set, and for the 128-bit set a sum of uniform numbers with about the published spread.
 * A product draws its masks and noise from a generator fit for the purpose. */
#include "egl.h"

#include "common.h"

#include <stdio.h>
#include <stdlib.h>
#include <string.h>
#include <time.h>

struct set { uint32_t n, nbit, bgbit, l, basebit, t, wide0, wide1; };
static struct set set = {20, 7, 7, 3, 3, 5, 3, 3};

#define P set.n, set.nbit, set.bgbit, set.l, set.basebit, set.t

/* a word of noise: a sum of 20 uniform numbers, its spread about 2.6 times 2^wide units of 2^-32 */
static uint32_t noise(uint32_t wide) {
    uint32_t x[20], sum = 0;
    draw(x, 20);
    for (int i = 0; i < 20; i++) sum += (x[i] >> (31 - wide)) - (1u << wide);
    return sum;
}

static uint32_t *words(size_t count) {
    uint32_t *w = malloc(count * 4);
    if (!w) exit(3);
    return w;
}

typedef egl_answer two_inputs(EGL_PARAMS, const uint32_t *, size_t, const uint32_t *, size_t, const uint32_t *, size_t, const uint32_t *, size_t, uint32_t *, size_t);

typedef egl_answer three_inputs(EGL_PARAMS, const uint32_t *, size_t, const uint32_t *, size_t, const uint32_t *, size_t, const uint32_t *, size_t, const uint32_t *, size_t, uint32_t *, size_t);

/* bit i of `meant` is the result for the inputs whose bits i counts, a lowest */
static const struct { const char *name; two_inputs *run; unsigned meant; } gates[] = {
    {"nand", egl_gates_nand, 0x7}, {"or", egl_gates_or, 0xE}, {"and", egl_gates_and, 0x8}, {"nor", egl_gates_nor, 0x1},
    {"and_ny", egl_gates_and_ny, 0x4}, {"and_yn", egl_gates_and_yn, 0x2}, {"or_ny", egl_gates_or_ny, 0xD}, {"or_yn", egl_gates_or_yn, 0xB},
    {"xor", egl_gates_xor, 0x6}, {"xnor (xor)", egl_gates_xnor, 0x6},
};
static const struct { const char *name; three_inputs *run; unsigned meant; } selections[] = {
    {"mux", egl_gates_mux, 0xD8}, {"mux_naive", egl_gates_mux_naive, 0xD8},
};

static uint32_t *key0;
static int shown, wrong;

/* Decrypts a gate's result, prints it and holds it to what is meant. */
static void show(const char *name, egl_answer answer, const uint32_t *out, unsigned meant) {
    done(name, answer);
    egl_answer got = egl_tlwe_decrypt_bit_lv0(P, out, set.n + 1, key0, set.n);
    done("decryption", got);
    shown++;
    wrong += EGL_VALUE(got) != meant;
    printf("  %u%s", EGL_VALUE(got), EGL_VALUE(got) == meant ? "" : "!");
    fflush(stdout);
}

int main(int count, char **args) {
    if (count > 1 && strcmp(args[1], "128") == 0) set = (struct set){700, 10, 6, 3, 2, 9, 15, 5};
    const size_t n = set.n, N = (size_t)1 << set.nbit, base = (size_t)1 << set.basebit;
    const size_t rows = (base - 1) * set.t * N, ksk_len = rows * (n + 1), bsk_masks = n * 2 * set.l * N, bsk_len = 2 * bsk_masks;
    uint32_t *key1 = words(N), *ksk = words(ksk_len), *bsk = words(bsk_len);
    uint32_t *masks = words(rows * n > bsk_masks ? rows * n : bsk_masks), *errors = words(rows > bsk_masks ? rows : bsk_masks);
    key0 = words(n);
    draw_key(key0, n);
    draw_key(key1, N);
    draw(masks, rows * n);
    for (size_t i = 0; i < rows; i++) errors[i] = noise(set.wide0);
    done("switching key", egl_key_gen_key_switching_key(P, key0, n, key1, N, masks, rows * n, errors, rows, ksk, ksk_len));
    draw(masks, bsk_masks);
    for (size_t i = 0; i < bsk_masks; i++) errors[i] = noise(set.wide1);
    done("bootstrapping key", egl_trgsw_gen_bootstrapping_key(P, key0, n, key1, N, masks, bsk_masks, errors, bsk_masks, bsk, bsk_len));

    uint32_t *bit[2] = {words(n + 1), words(n + 1)}, *out = words(n + 1);
    for (uint32_t b = 0; b < 2; b++) {
        draw(masks, n);
        done("encryption", egl_tlwe_encrypt_bit_lv0(P, b, masks, n, noise(set.wide0), key0, n, bit[b], n + 1));
    }
    clock_t start = clock();
    printf("%-12s 00 10 01 11\n", "a b");
    for (size_t g = 0; g < sizeof gates / sizeof *gates; g++) {
        printf("%-12s", gates[g].name);
        for (unsigned in = 0; in < 4; in++)
            show(gates[g].name, gates[g].run(P, bit[in & 1], n + 1, bit[in >> 1], n + 1, ksk, ksk_len, bsk, bsk_len, out, n + 1), out, gates[g].meant >> in & 1);
        printf("\n");
    }
    double two = (double)(clock() - start) / CLOCKS_PER_SEC / 40;
    printf("%-12s 000 100 010 110 001 101 011 111\n", "a b c");
    for (size_t g = 0; g < sizeof selections / sizeof *selections; g++) {
        printf("%-12s ", selections[g].name);
        for (unsigned in = 0; in < 8; in++) {
            const uint32_t *a = bit[in & 1], *b = bit[in >> 1 & 1], *c = bit[in >> 2];
            show(selections[g].name, selections[g].run(P, a, n + 1, b, n + 1, c, n + 1, ksk, ksk_len, bsk, bsk_len, out, n + 1), out, selections[g].meant >> in & 1);
            printf(" ");
        }
        printf("\n");
    }
    printf("%-12s  0  1\n%-12s", "a", "not");
    for (unsigned b = 0; b < 2; b++) show("not", egl_gates_not(P, bit[b], n + 1, out, n + 1), out, !b);
    printf("\n%-12s", "copy");
    for (unsigned b = 0; b < 2; b++) show("copy", egl_gates_copy(P, bit[b], n + 1, out, n + 1), out, b);
    printf("\n%-12s", "constant");
    for (unsigned b = 0; b < 2; b++) show("constant", egl_gates_constant(P, b, out, n + 1), out, b);
    printf("\n%d of %d wrong, %.4f s a gate of two inputs\n", wrong, shown, two);
    return wrong != 0;
}
