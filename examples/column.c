/* A column: one call evaluates a gate on many pairs of encrypted bits. Runs every kind on all four pairs of bits, decrypts and prints the truth tables; cuts a column
 * in two calls, which give the same words; and shows what is refused. The keys come from the system's random source, at a practice set that gives no secrecy. */
#include "egl.h"

#include "common.h"

#include <stdio.h>
#include <string.h>

enum { n = 20, nbit = 7, bgbit = 7, l = 3, basebit = 3, t = 5 };
#define P n, nbit, bgbit, l, basebit, t
enum { N = 1 << nbit, ciphertext = n + 1, count = 4 };
enum { ksk_len = EGL_SWITCHING_WORDS(P), bsk_len = EGL_BOOTSTRAPPING_WORDS(P) };

/* bit i of `meant` is the result for the pair whose bits i counts, a lowest */
static const struct { const char *name; size_t kind; unsigned meant; } kinds[] = {
    {"and", 3, 0x8}, {"or", 4, 0xE}, {"nand", 5, 0x7}, {"nor", 6, 0x1}, {"xor", 7, 0x6},
    {"not xor", 8, 0x9}, {"and_ny", 9, 0x4}, {"and_yn", 10, 0x2}, {"or_ny", 11, 0xD}, {"or_yn", 12, 0xB},
};

static uint32_t key0[n], key1[N], ksk[ksk_len], bsk[bsk_len];
static uint32_t pairs[count * 2 * ciphertext], out[count * ciphertext], parts[count * ciphertext];

/* The pairs from one on, so many, into their places in `to`. */
static egl_answer column(size_t kind, size_t from, size_t many, uint32_t *to) {
    return egl_gate_column(P, kind, many, pairs + from * 2 * ciphertext, many * 2 * ciphertext, ksk, ksk_len, bsk, bsk_len, to + from * ciphertext, many * ciphertext);
}

int main(void) {
    draw_keys(P, key0, key1, ksk, bsk);
    /* pair i / 2, its a and then its b */
    for (unsigned i = 0; i < 2 * count; i++) encrypt(P, i / 2 >> i % 2 & 1, key0, pairs + i * ciphertext);

    int wrong = 0;
    printf("%-12s 00 10 01 11\n", "a b");
    for (size_t k = 0; k < sizeof kinds / sizeof *kinds; k++) {
        done(kinds[k].name, column(kinds[k].kind, 0, count, out));
        printf("%-12s", kinds[k].name);
        for (unsigned i = 0; i < count; i++) {
            uint32_t got = EGL_VALUE(done("decryption", egl_tlwe_decrypt_bit_lv0(P, out + i * ciphertext, ciphertext, key0, n)));
            wrong += got != (kinds[k].meant >> i & 1);
            printf("  %u%s", got, got == (kinds[k].meant >> i & 1) ? "" : "!");
        }
        printf("\n");
    }
    printf("%d of %d wrong\n", wrong, (int)(sizeof kinds / sizeof *kinds) * count);

    /* the same in two parts, which two threads could do at once */
    done("first part", column(5, 0, 3, parts));
    done("second part", column(5, 3, 1, parts));
    done("whole", column(5, 0, count, out));
    int differ = memcmp(out, parts, sizeof out) != 0;
    printf("two parts: %s\n", differ ? "other words" : "the same words");

    /* no pairs, then what is refused: nothing of it is written */
    done("no pairs", egl_gate_column(P, 5, 0, NULL, 0, ksk, ksk_len, bsk, bsk_len, NULL, 0));
    differ += refused("kind 13", column(13, 0, count, out), 9);
    differ += refused("kind 13 on no pairs", column(13, 0, 0, out), 9);
    differ += refused("a pair too few", egl_gate_column(P, 13, count, pairs, (count - 1) * 2 * ciphertext, ksk, ksk_len, bsk, bsk_len, out, count * ciphertext), 2);
    differ += refused("more words than there are numbers", egl_gate_column(P, 5, SIZE_MAX, pairs, count * 2 * ciphertext, ksk, ksk_len, bsk, bsk_len, out, count * ciphertext), 2);
    differ += refused("no switching key", egl_gate_column(P, 5, count, pairs, count * 2 * ciphertext, NULL, 0, bsk, bsk_len, out, count * ciphertext), 2);
    differ += refused("n 0", egl_gate_column(0, nbit, bgbit, l, basebit, t, 13, count, NULL, 0, NULL, 0, NULL, 0, out, count * ciphertext), 1);
    differ += memcmp(out, parts, sizeof out) != 0;
    return wrong != 0 || differ != 0;
}
