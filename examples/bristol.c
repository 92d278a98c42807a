/* A circuit written elsewhere: a full adder as text in the Bristol Fashion form, its wires numbered in no order. Imports it, runs it on every input against the
 * machine's own sum, writes it back as text, imports that too, and shows where texts that cannot be taken are at fault. */
#include "egl.h"

#include "common.h"

#include <stdio.h>
#include <string.h>

/* One value of two bits a, b, and a carry c of one; out come the sum and the next carry, wires 7 and 8. */
static const char adder[] =
    "6 9\n"
    "2 2 1\n"
    "1 2\n"
    "\n"
    "2 1 0 1 6 XOR\n"
    "2 1 0 1 4 AND\n"
    "2 1 2 6 3 XOR\n"
    "2 1 6 2 5 AND\n"
    "2 1 5 4 8 XOR\n"
    "1 1 3 7 EQW\n";

enum { inputs = 3, outputs = 2 };

static uint8_t circuit[EGL_CIRCUIT_BYTES], again[EGL_CIRCUIT_BYTES], text[EGL_BRISTOL_BYTES];

static egl_answer import(const char *from, uint8_t *out, size_t out_len) {
    return egl_bristol_import((const uint8_t *)from, strlen(from), out, out_len);
}

/* How many outputs of a circuit differ from the sum of the input bits, over all inputs; they are printed where asked. */
static int wrong_bits(const uint8_t *bytes, size_t len, int printed) {
    int wrong = 0;
    for (unsigned row = 0; row < 1u << inputs; row++) {
        uint8_t bits[inputs] = {row & 1, row >> 1 & 1, row >> 2}, out[outputs];
        done("plain run", egl_circuit_run_plain(bytes, len, bits, inputs, out, outputs));
        unsigned sum = bits[0] + bits[1] + bits[2];
        wrong += (out[0] != (sum & 1)) + (out[1] != sum >> 1);
        if (printed) printf("%u %u %u  %u %u\n", bits[0], bits[1], bits[2], out[0], out[1]);
    }
    return wrong;
}

/* Prints how a text is refused; 1 where another refusal is due. */
static int text_refused(const char *what, const char *from, size_t out_len, uint32_t number, uint32_t place) {
    return refused(what, import(from, again, out_len), (egl_answer)place << 32 | number);
}

int main(void) {
    size_t len = EGL_VALUE(done("import", import(adder, circuit, sizeof circuit)));
    uint32_t counts[EGL_CIRCUIT_COUNTS];
    done("counts", egl_circuit_counts(circuit, len, counts, EGL_CIRCUIT_COUNTS));
    printf("%u bytes: inputs %u, gates %u, outputs %u\na b c  sum carry\n", (unsigned)len, counts[1], counts[2], counts[3]);
    int wrong = wrong_bits(circuit, len, 1);

    size_t written = EGL_VALUE(done("export", egl_bristol_export(circuit, len, text, sizeof text)));
    printf("as text again:\n%.*s", (int)written, (const char *)text);
    size_t back = EGL_VALUE(done("import of the export", egl_bristol_import(text, written, again, sizeof again)));
    wrong += wrong_bits(again, back, 0);
    printf("%d of %d wrong\n", wrong, 2 * (outputs << inputs));

    /* what is refused: nothing of it is written */
    memset(again, 7, sizeof again);
    int differ = text_refused("a name that is none", "1 3\n1 2\n1 1\n\n2 1 0 1 2 NAND\n", sizeof again, 11, 23);
    differ += text_refused("a wire read before it is set", "1 3\n1 2\n1 1\n\n2 1 0 2 2 AND\n", sizeof again, 11, 19);
    differ += text_refused("a text that ends too early", "1 3\n1 2\n1 1\n\n2 1 0 1", sizeof again, 11, 20);
    differ += text_refused("MAND", "1 3\n1 2\n1 1\n\n2 1 0 1 2 MAND\n", sizeof again, 12, 23);
    differ += text_refused("no output", "1 3\n1 2\n1 0\n\n2 1 0 1 2 AND\n", sizeof again, 12, 10);
    differ += text_refused("a byte too few for the adder", adder, len - 1, 2, 0);
    for (size_t i = 0; i < sizeof again; i++) differ += again[i] != 7;
    return wrong != 0 || differ != 0;
}
