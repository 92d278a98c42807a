/* A circuit from a file, about which nothing is known: its counts size every buffer, and it runs on encrypted bits. Bytes that are no circuit are refused with their
 * place.
 *
 *   sizes          a small circuit, written to a file here first; it is run on every input, and some files that are no circuits are refused
 *   sizes FILE     the circuit in that file, on inputs drawn at random
 *
 * The keys come from the system's random source, at a practice set that gives no secrecy. */
#include "egl.h"

#include "common.h"

#include <stdio.h>
#include <stdlib.h>
#include <string.h>

#define P 20, 7, 7, 3, 3, 5
enum { n = 20, N = 128 };

static uint32_t key0[n], key1[N];
static uint32_t *ksk, *bsk;

/* The file's bytes: one more than the longest circuit has is enough to tell that there are too many. */
static size_t read_file(const char *name, uint8_t bytes[EGL_CIRCUIT_BYTES + 1]) {
    FILE *file = fopen(name, "rb");
    if (!file) {
        printf("%s cannot be read\n", name);
        exit(3);
    }
    size_t len = fread(bytes, 1, EGL_CIRCUIT_BYTES + 1, file);
    fclose(file);
    return len;
}

/* Runs the circuit on these bits, plain and encrypted, in buffers that its counts size; the number of outputs that differ. */
static int run(const uint8_t *bytes, size_t len, const uint32_t *counts, const uint8_t *bits) {
    size_t inputs = counts[1], wires = (size_t)counts[1] + counts[2], outputs = counts[3], c = EGL_CIPHERTEXT_WORDS(P);
    uint8_t *meant = room(outputs, 1);
    uint32_t *ins = room(inputs * c, 4), *all = room(wires * c, 4), *outs = room(outputs * c, 4);
    for (size_t i = 0; i < inputs; i++) {
        encrypt(P, bits[i], key0, ins + i * c);
        printf("%u", bits[i]);
    }
    done("plain run", egl_circuit_run_plain(bytes, len, bits, inputs, meant, outputs));
    done("encrypted run", egl_circuit_run_encrypted(P, ksk, EGL_SWITCHING_WORDS(P), bsk, EGL_BOOTSTRAPPING_WORDS(P), bytes, len, ins, inputs * c, all, wires * c, outs, outputs * c));
    int wrong = 0;
    printf(" ");
    for (size_t o = 0; o < outputs; o++) {
        uint32_t got = EGL_VALUE(done("decryption", egl_tlwe_decrypt_bit_lv0(P, outs + o * c, c, key0, n)));
        wrong += got != meant[o];
        printf("%u%s", got, got == meant[o] ? "" : "!");
    }
    printf("\n");
    free(meant);
    free(ins);
    free(all);
    free(outs);
    return wrong;
}

/* Runs the circuit in a file, on every input where there are at most `most` of them, else on one drawn at random. */
static int run_file(const char *name, unsigned most) {
    static uint8_t bytes[EGL_CIRCUIT_BYTES + 1], bits[256];
    uint32_t counts[EGL_CIRCUIT_COUNTS];
    size_t len = read_file(name, bytes);
    done("the file", egl_circuit_counts(bytes, len, counts, EGL_CIRCUIT_COUNTS));
    printf("EGL %u inputs %u gates %u outputs %u work %u\n", counts[0], counts[1], counts[2], counts[3], counts[4]);
    int all = counts[1] <= most, wrong = 0;
    for (unsigned row = 0; row < (all ? 1u << counts[1] : 1); row++) {
        uint32_t random;
        for (unsigned i = 0; i < counts[1]; i++) {
            if (!all) draw(&random, 1);
            bits[i] = all ? row >> i & 1 : random & 1;
        }
        wrong += run(bytes, len, counts, bits);
    }
    return wrong;
}

/* Two inputs: whether they are alike, and the one where the other is true. */
static const uint8_t small[] = {'E', 'G', 'L', 1, 0, 2, 0, 2, 0, 2, 0, 8, 0, 0, 0, 1, 0, 0, 0, 13, 0, 0, 0, 1, 0, 0, 0, 2, 0, 3, 0};

/* What a caller who lends nothing, with NULL for it, is answered; whether each answer is the one it must be. */
static int nothing_lent(void) {
    static const uint8_t truth[] = {'E', 'G', 'L', 1, 0, 0, 0, 1, 0, 1, 0, 1, 0, 0, 0, 0, 0, 0, 0, 0, 0};
    uint32_t counts[EGL_CIRCUIT_COUNTS], wires[n + 1], outs[n + 1];
    uint8_t out = 9;
    int good = egl_circuit_counts(NULL, 0, counts, EGL_CIRCUIT_COUNTS) == 8 && egl_circuit_counts(NULL, 0, NULL, 0) == 8;
    good &= egl_circuit_counts(small, sizeof small, NULL, 0) == 2 && egl_utils_f64_to_torus_vec(NULL, 0, NULL, 0) == 0;
    good &= egl_circuit_run_plain(truth, sizeof truth, NULL, 0, &out, 1) == 0 && out == 1;
    good &= egl_circuit_run_encrypted(P, ksk, EGL_SWITCHING_WORDS(P), bsk, EGL_BOOTSTRAPPING_WORDS(P), truth, sizeof truth, NULL, 0, wires, n + 1, outs, n + 1) == 0 && outs[n] == 0x20000000;
    good &= egl_gates_nand(P, NULL, 0, NULL, 0, NULL, 0, NULL, 0, NULL, 0) == 2 && egl_tlwe_decrypt_bit_lv0(P, NULL, 0, NULL, 0) == 2;
    return good;
}

/* Whether each published set is in range and its switching key has the length that the header works out; it has no row with k = 0. */
static int sets_known(void) {
    int good = 1;
#define KNOWN(set) good &= egl_params_check(set) == 0 && egl_key_switching_row_answer(set, EGL_SWITCHING_WORDS(set), 0, 0, 1) == 0 && egl_key_switching_row_answer(set, EGL_SWITCHING_WORDS(set), 0, 0, 0) == 3
    KNOWN(EGL_SET_80);
    KNOWN(EGL_SET_110);
    KNOWN(EGL_SET_128);
    KNOWN(EGL_SET_UINT1);
    KNOWN(EGL_SET_UINT2);
    KNOWN(EGL_SET_UINT3);
    KNOWN(EGL_SET_UINT4);
    KNOWN(EGL_SET_UINT5);
    KNOWN(EGL_SET_UINT6);
    return good;
}

int main(int argc, char **argv) {
    if (egl_version() != EGL_VERSION) {
        printf("the archive has version %u of the interface, the header %u\n", egl_version(), EGL_VERSION);
        return 1;
    }
    ksk = room(EGL_SWITCHING_WORDS(P), sizeof *ksk);
    bsk = room(EGL_BOOTSTRAPPING_WORDS(P), sizeof *bsk);
    draw_keys(P, key0, key1, ksk, bsk);
    if (argc > 1) return run_file(argv[1], 0) != 0;
    FILE *file = tmpfile();
    char name[64];
    if (!file) return 3;
    snprintf(name, sizeof name, "/proc/self/fd/%d", fileno(file));
    if (fwrite(small, 1, sizeof small, file) != sizeof small || fflush(file)) return 3;
    int wrong = run_file(name, 4);
    uint32_t counts[EGL_CIRCUIT_COUNTS];
    uint8_t cut[sizeof small];
    memcpy(cut, small, sizeof small);
    cut[11] = 14;
    egl_answer short_file = egl_circuit_counts(small, sizeof small - 1, counts, EGL_CIRCUIT_COUNTS), no_kind = egl_circuit_counts(cut, sizeof cut, counts, EGL_CIRCUIT_COUNTS);
    printf("a byte less: refused %u at %u; no such kind: refused %u at %u\n", EGL_NUMBER(short_file), EGL_PLACE(short_file), EGL_NUMBER(no_kind), EGL_PLACE(no_kind));
    int taken = nothing_lent(), known = sets_known();
    printf("%d wrong, NULL with length 0 is %s, the published sets are %s\n", wrong, taken ? "taken" : "answered otherwise than it must be", known ? "known" : "not all known");
    return wrong != 0 || !taken || !known;
}
