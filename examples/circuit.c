/* A small circuit on encrypted bits: the sum of two bits and a carry. Builds its bytes, runs it on every input, plain and encrypted, and
 * prints both. The keys come from the system's random source, at a practice set that gives no secrecy. */
#include "egl.h"

#include "common.h"

#include <stdio.h>
#include <stdlib.h>

enum { n = 20, nbit = 7, bgbit = 7, l = 3, basebit = 3, t = 5 };
#define P n, nbit, bgbit, l, basebit, t
enum { N = 1 << nbit, inputs = 3, gates = 3, outputs = 2, ciphertext = n + 1 };
enum { ksk_len = EGL_SWITCHING_WORDS(P), bsk_len = EGL_BOOTSTRAPPING_WORDS(P) };

/* Wires 0, 1, 2 are a, b and the carry c; 3 = a xor b, 4 = (a xor b) xor c is the sum, 5 = c where a and b differ, else a, is the next carry. */
static const uint8_t adder[] = {
    'E', 'G', 'L', 1, 0, inputs, 0, gates, 0, outputs, 0,
    7, 0, 0, 0, 1, 0, 0, 0,
    7, 0, 3, 0, 2, 0, 0, 0,
    13, 0, 3, 0, 2, 0, 0, 0,
    4, 0, 5, 0,
};

static uint32_t key0[n], key1[N], ksk[ksk_len], bsk[bsk_len];
static uint32_t ins[inputs * ciphertext], wires[(inputs + gates) * ciphertext], outs[outputs * ciphertext];

int main(void) {
    draw_keys(P, key0, key1, ksk, bsk);

    int wrong = 0;
    uint32_t work = EGL_VALUE(done("work", egl_circuit_work(adder, sizeof adder)));
    wrong += work != 4;
    printf("%d gates, work %u: the two xors rotate once each, the mux twice\na b c  sum carry\n", gates, work);
    for (unsigned row = 0; row < 1u << inputs; row++) {
        uint8_t bits[inputs], meant[outputs];
        for (unsigned i = 0; i < inputs; i++) {
            bits[i] = row >> i & 1;
            encrypt(P, bits[i], key0, ins + i * ciphertext);
        }
        done("plain run", egl_circuit_run_plain(adder, sizeof adder, bits, inputs, meant, outputs));
        done("encrypted run", egl_circuit_run_encrypted(P, ksk, ksk_len, bsk, bsk_len, adder, sizeof adder, ins, inputs * ciphertext, wires, (inputs + gates) * ciphertext, outs, outputs * ciphertext));
        printf("%u %u %u ", bits[0], bits[1], bits[2]);
        for (unsigned o = 0; o < outputs; o++) {
            uint32_t got = EGL_VALUE(done("decryption", egl_tlwe_decrypt_bit_lv0(P, outs + o * ciphertext, ciphertext, key0, n)));
            wrong += got != meant[o];
            printf(" %u%s ", got, got == meant[o] ? "  " : "! ");
        }
        printf("\n");
    }
    printf("%d of %d wrong\n", wrong, (outputs << inputs) + 1);
    return wrong != 0;
}
