/* A lookup table on encrypted small messages. One table squares a message modulo 8; a second one, of bits, takes what the first gave and tells whether that is above 2; a gate takes such bits. Each
 * lookup tells its drifts, for the keys are here, and is decrypted and held to the plain table. Then what is refused. The keys come from the system's random source, at a practice set that gives no
 * secrecy. */
#include "egl.h"

#include "common.h"

#include <stdio.h>
#include <string.h>

enum { n = 20, nbit = 7, bgbit = 7, l = 3, basebit = 3, t = 5 };
#define P n, nbit, bgbit, l, basebit, t
enum { N = 1 << nbit, ciphertext = n + 1, modulus = 8 };
enum { ksk_len = EGL_SWITCHING_WORDS(P), bsk_len = EGL_BOOTSTRAPPING_WORDS(P) };

static uint32_t key0[n], key1[N], ksk[ksk_len], bsk[bsk_len];

/* A lookup with its drifts, printed in hundredths of their margins, 2^30 over the modulus; 1 where one of them is outside. results is 2 for bits. */
static int look(const char *what, const uint32_t *table, uint64_t results, uint32_t value, const uint32_t *c, uint32_t *out) {
    uint32_t drifts[EGL_LOOKUP_DRIFTS];
    egl_answer told = egl_lookup_drift(P, modulus, table, modulus, results, value, ksk, ksk_len, bsk, bsk_len, key0, n, key1, N, c, ciphertext, out, ciphertext, drifts, EGL_LOOKUP_DRIFTS);
    done(what, told);
    printf("  %8s: %6.1f %%, %6.1f %%", what, 100.0 * (int32_t)drifts[0] * modulus / (1 << 30), 100.0 * (int32_t)drifts[1] * (double)results / (1 << 30));
    return EGL_VALUE(told) != 1;
}

int main(void) {
    draw_keys(P, key0, key1, ksk, bsk);
    /* a message's word is the message times 2^31 / modulus; a bit's is an eighth of a turn, or that negated */
    uint32_t square[modulus], above[modulus];
    for (uint32_t m = 0; m < modulus; m++) {
        square[m] = m * m % modulus * ((1u << 31) / modulus);
        above[m] = m > 2 ? 0x20000000 : 0xE0000000;
    }

    int wrong = 0, differ = 0;
    uint32_t c[ciphertext], masks[n], noise, squared[ciphertext], bit[ciphertext], other[ciphertext], out[ciphertext];
    encrypt(P, 1, key0, other);
    printf("message, table: brought-in drift and result's drift of their margins, and what comes out\n");
    for (uint32_t m = 0; m < modulus; m++) {
        draw(masks, n);
        draw_noise(&noise, 1);
        done("encryption", egl_tlwe_encrypt_message_lv0(P, m, modulus, masks, n, noise, key0, n, c, ciphertext));
        printf("%u:", m);
        wrong += look("square", square, modulus, m, c, squared);
        uint32_t got = EGL_VALUE(done("decryption", egl_tlwe_decrypt_message_lv0(P, modulus, squared, ciphertext, key0, n)));
        wrong += got != m * m % modulus;
        printf(" -> %u", got);

        /* the table after it: what the first gave is a message of this modulus */
        wrong += look("above 2", above, 2, got, squared, bit);
        uint32_t told = EGL_VALUE(done("decryption", egl_tlwe_decrypt_bit_lv0(P, bit, ciphertext, key0, n)));
        wrong += told != (m * m % modulus > 2);
        printf(" -> %u\n", told);

        /* without the secret keys the words are the same, and a gate takes the bit: with true, nand negates */
        done("lookup", egl_lookup(P, modulus, square, modulus, c, ciphertext, ksk, ksk_len, bsk, bsk_len, out, ciphertext));
        differ += memcmp(out, squared, sizeof out) != 0;
        done("nand", egl_gates_nand(P, bit, ciphertext, other, ciphertext, ksk, ksk_len, bsk, bsk_len, out, ciphertext));
        wrong += EGL_VALUE(done("decryption", egl_tlwe_decrypt_bit_lv0(P, out, ciphertext, key0, n))) != !told;
    }
    printf("%d of %d wrong\n", wrong, 5 * modulus);

    /* what is refused, and that nothing of it is written: 2 comes before 5 */
    static uint32_t many[N], a[N], b[N];
    memcpy(out, bit, sizeof out);
    differ += refused("modulus 3", egl_lookup(P, 3, square, 3, c, ciphertext, ksk, ksk_len, bsk, bsk_len, out, ciphertext), 5);
    differ += refused("modulus 3 with 8 words", egl_lookup(P, 3, square, modulus, c, ciphertext, ksk, ksk_len, bsk, bsk_len, out, ciphertext), 2);
    differ += memcmp(out, bit, sizeof out) != 0;
    /* twice 64 divides N = 128; at N = 64 it does not */
    done("modulus 64", egl_table_testvec(P, 64, many, 64, a, N, b, N));
    differ += refused("modulus 64 at N 64", egl_table_testvec(n, 6, bgbit, l, basebit, t, 64, many, 64, a, 64, b, 64), 5);
    return wrong != 0 || differ != 0;
}
