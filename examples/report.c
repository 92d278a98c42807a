/* A drift report: a circuit is run with its drift on every input, the reports of the runs are merged into one, and it is printed: how many wires had a drift of each size in bits,
 * and the largest. What is refused is shown too. The keys come from the system's random source, at a practice set that gives no secrecy. */
#include "egl.h"

#include "common.h"

#include <stdio.h>
#include <string.h>

enum { n = 20, nbit = 7, bgbit = 7, l = 3, basebit = 3, t = 5 };
#define P n, nbit, bgbit, l, basebit, t
enum { N = 1 << nbit, inputs = 3, gates = 4, outputs = 2, ciphertext = n + 1, wires_count = inputs + gates };
enum { ksk_len = EGL_SWITCHING_WORDS(P), bsk_len = EGL_BOOTSTRAPPING_WORDS(P) };

/* the calls take a report as words, and EGL_DRIFT_REPORT hands a struct over: that is right only while it is these words and nothing more */
_Static_assert(sizeof(egl_drift_report) == 4 * EGL_DRIFT_REPORT_WORDS, "egl_drift_report has padding, or another number of words than the calls take");

/* Wires 0, 1, 2 are a, b and the carry c; 3 = a xor b, 4 = (a xor b) xor c is the sum, 5 = c where a and b differ, else a, is the next carry, 6 = true. */
static const uint8_t adder[] = {
    'E', 'G', 'L', 1, 0, inputs, 0, gates, 0, outputs, 0,
    7, 0, 0, 0, 1, 0, 0, 0,
    7, 0, 3, 0, 2, 0, 0, 0,
    13, 0, 3, 0, 2, 0, 0, 0,
    1, 0, 0, 0, 0, 0, 0, 0,
    4, 0, 5, 0,
};

static uint32_t key0[n], key1[N], ksk[ksk_len], bsk[bsk_len];
static uint32_t ins[inputs * ciphertext], wires[wires_count * ciphertext], outs[outputs * ciphertext], drifts[wires_count];
static uint32_t many[EGL_DRIFT_REPORT_WIRES + 1];

/* Runs the adder on the bits that a row counts, with each wire's drift; gives the number of outputs that are wrong where the run is told inside, and counts such runs. */
static int run(unsigned row, int *inside) {
    uint8_t bits[inputs], meant[outputs];
    for (unsigned i = 0; i < inputs; i++) {
        bits[i] = row >> i & 1;
        encrypt(P, bits[i], key0, ins + i * ciphertext);
    }
    egl_answer told = done("drift run", egl_drift_run(P, ksk, ksk_len, bsk, bsk_len, key0, n, key1, N, adder, sizeof adder, ins, inputs * ciphertext, bits, inputs, wires, wires_count * ciphertext, outs, outputs * ciphertext, drifts, wires_count));
    if (!EGL_VALUE(told)) return 0;
    ++*inside;
    int wrong = 0;
    done("plain run", egl_circuit_run_plain(adder, sizeof adder, bits, inputs, meant, outputs));
    for (unsigned o = 0; o < outputs; o++) wrong += EGL_VALUE(done("decryption", egl_tlwe_decrypt_bit_lv0(P, outs + o * ciphertext, ciphertext, key0, n))) != meant[o];
    return wrong;
}

/* A line for each size from the smallest to the largest that occurs, and the line between inside and outside. */
static void show(const egl_drift_report *r) {
    int first = EGL_DRIFT_REPORT_INSIDE, last = EGL_DRIFT_REPORT_INSIDE;
    for (int size = 0; size <= 32; size++) {
        if (!r->counts[size]) continue;
        if (size < first) first = size;
        if (size > last) last = size;
    }
    printf("drifts of %u wires\nbits  wires\n", r->total);
    for (int size = first; size <= last; size++) {
        printf("%4d  %5u\n", size, r->counts[size]);
        if (size == EGL_DRIFT_REPORT_INSIDE) printf("---- margin at 29 bits (2^29, an eighth of a turn): inside above, outside below ----\n");
    }
    printf("the largest is %d, of wire %u\n", (int)r->largest, r->wire);
}

int main(void) {
    draw_keys(P, key0, key1, ksk, bsk);

    egl_drift_report all, one, both;
    int wrong = 0, inside = 0, differ = 0;
    done("no wire", egl_drift_report_empty(EGL_DRIFT_REPORT(&all)));
    for (unsigned row = 0; row < 1u << inputs; row++) {
        wrong += run(row, &inside);
        done("report", egl_drift_report_of(drifts, wires_count, EGL_DRIFT_REPORT(&one)));
        done("merging", egl_drift_report_merge(EGL_DRIFT_REPORT(&all), EGL_DRIFT_REPORT(&one), EGL_DRIFT_REPORT(&both)));
        all = both;
        /* the same at once: the report of all drifts so far */
        memcpy(many + row * wires_count, drifts, sizeof drifts);
        done("report of all", egl_drift_report_of(many, (row + 1) * wires_count, EGL_DRIFT_REPORT(&one)));
        differ += memcmp(&all, &one, sizeof all) != 0;
    }
    show(&all);
    /* wires alone are in it: that the outputs are right is what the run tells */
    printf("%d of %d runs inside, and of their outputs %d wrong\n", inside, 1 << inputs, wrong);

    /* the most wires that a report is of, then what is refused: nothing of it is written */
    done("65,535 wires", egl_drift_report_of(many, EGL_DRIFT_REPORT_WIRES, EGL_DRIFT_REPORT(&one)));
    differ += one.total != EGL_DRIFT_REPORT_WIRES;
    both = one;
    differ += refused("65,536 wires", egl_drift_report_of(many, EGL_DRIFT_REPORT_WIRES + 1, EGL_DRIFT_REPORT(&one)), 13);
    differ += refused("65,535 wires and more", egl_drift_report_merge(EGL_DRIFT_REPORT(&both), EGL_DRIFT_REPORT(&all), EGL_DRIFT_REPORT(&one)), 13);
    differ += memcmp(&both, &one, sizeof one) != 0;
    differ += refused("into 7 words", egl_drift_report_of(many, EGL_DRIFT_REPORT_WIRES + 1, drifts, wires_count), 2);
    differ += memcmp(drifts, many + ((1u << inputs) - 1) * wires_count, sizeof drifts) != 0;
    return wrong != 0 || differ != 0;
}
