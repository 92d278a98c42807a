/* For whoever holds a switching key that was made up to version 5 of the interface, with its idle rows: drops them, which gives the key as it is now, and runs a gate with it.
 * Then what is refused: the former key where today's is wanted, today's where the former one is, and a lookup of an idle row. The keys come from the system's random source, at a
 * practice set that gives no secrecy. */
#include "egl.h"

#include "common.h"

#include <stdio.h>
#include <string.h>

enum { n = 20, nbit = 7, bgbit = 7, l = 3, basebit = 3, t = 5 };
#define P n, nbit, bgbit, l, basebit, t
enum { N = 1 << nbit, base = 1 << basebit, ciphertext = n + 1 };
enum { ksk_len = EGL_SWITCHING_WORDS(P), former_len = EGL_FORMER_SWITCHING_WORDS(P), bsk_len = EGL_BOOTSTRAPPING_WORDS(P) };

static uint32_t key0[n], key1[N], made[ksk_len], bsk[bsk_len], former[former_len], ksk[ksk_len];

/* A key as a program over version 5 stored it: row (i, j, k), k from 1, at base * (t * i + j) + k. The rows with k = 0 were zero; here they hold anything. */
static void store_as_before(void) {
    draw(former, former_len);
    for (size_t field = 0; field < t * N; field++)
        memcpy(former + (base * field + 1) * ciphertext, made + (base - 1) * field * ciphertext, (base - 1) * ciphertext * sizeof *former);
}

int main(void) {
    draw_keys(P, key0, key1, made, bsk);
    store_as_before();

    done("dropping idle rows", egl_key_drop_idle_rows(P, former, former_len, ksk, ksk_len));
    int differ = memcmp(ksk, made, sizeof ksk) != 0;
    printf("%d words of a former key become %d: %s\n", (int)former_len, (int)ksk_len, differ ? "other words than those that are made" : "the words that are made");

    uint32_t a[ciphertext], b[ciphertext], out[ciphertext];
    int wrong = 0;
    printf("%-12s 00 10 01 11\n%-12s", "a b", "nand");
    for (unsigned in = 0; in < 4; in++) {
        encrypt(P, in & 1, key0, a);
        encrypt(P, in >> 1, key0, b);
        done("nand", egl_gates_nand(P, a, ciphertext, b, ciphertext, ksk, ksk_len, bsk, bsk_len, out, ciphertext));
        uint32_t got = EGL_VALUE(done("decryption", egl_tlwe_decrypt_bit_lv0(P, out, ciphertext, key0, n)));
        wrong += got != (in != 3);
        printf("  %u%s", got, got == (in != 3) ? "" : "!");
    }
    printf("\n%d of 4 wrong\n", wrong);

    /* what is refused, and that nothing of it is written; the lengths tell the two apart */
    memcpy(a, out, sizeof out);
    differ += refused("the former key in a gate", egl_gates_nand(P, a, ciphertext, b, ciphertext, former, former_len, bsk, bsk_len, out, ciphertext), 2);
    differ += memcmp(a, out, sizeof out) != 0;
    differ += refused("today's key as a former one", egl_key_drop_idle_rows(P, made, ksk_len, ksk, ksk_len), 2);
    differ += refused("into a row less", egl_key_drop_idle_rows(P, former, former_len, ksk, ksk_len - ciphertext), 2);
    differ += memcmp(ksk, made, sizeof ksk) != 0;
    differ += refused("row (0, 0, 0)", egl_key_row_index(P, 0, 0, 0), 3);
    differ += EGL_VALUE(done("row (0, 0, 1)", egl_key_row_index(P, 0, 0, 1))) != 0;
    return wrong != 0 || differ != 0;
}
