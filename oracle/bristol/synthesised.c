/* Reads Bristol Fashion text on standard input, imports it and runs it on plain bits, on all inputs or on random ones: the outputs have to be what whole-number arithmetic
 * gives. The first argument names the circuit (adder, comparator, multiplier), the second tells the bits of its operands, the third the refusal that is awaited (0: none). */
#include "egl.h"
#include <stdio.h>
#include <stdlib.h>
#include <string.h>

enum { LONGEST = 11 + 8 * 1024 + 2 * 64, TEXT = 1 << 20, RANDOM = 30000 };

static uint64_t meant(const char *name, uint64_t a, uint64_t b) {
    if (!strcmp(name, "adder")) return a + b;
    if (!strcmp(name, "comparator")) return a < b;
    return a * b;
}

static uint64_t state = 2026;
static uint64_t drawn(void) {
    state = state * 6364136223846793005u + 1442695040888963407u;
    return state >> 20;
}

int main(int count, char **words) {
    static uint8_t text[TEXT], circuit[LONGEST];
    if (count != 4) return 2;
    const char *name = words[1];
    unsigned width = atoi(words[2]), awaited = atoi(words[3]);
    size_t length = fread(text, 1, TEXT, stdin);
    egl_answer answer = egl_bristol_import(text, length, circuit, LONGEST);
    printf("%s of %u bits, %zu bytes of text: ", name, width, length);
    if (EGL_NUMBER(answer) != 0) {
        printf("refused with %u at %u\n", EGL_NUMBER(answer), EGL_PLACE(answer));
        return EGL_NUMBER(answer) != awaited;
    }
    size_t bytes = EGL_VALUE(answer), outputs = circuit[9];
    int all = width <= 8;
    uint32_t differences = 0, inputs = all ? 1u << 2 * width : RANDOM;
    for (uint32_t i = 0; i < inputs; i++) {
        uint64_t mask = (1u << width) - 1, a = (all ? i : drawn()) & mask, b = (all ? i >> width : drawn()) & mask, got = 0;
        /* neighbours, where a comparison turns */
        if (!all && i % 4 == 0) b = (a + i / 4 % 3 - 1) & mask;
        uint8_t in[64], out[64];
        for (unsigned k = 0; k < width; k++) in[k] = a >> k & 1, in[width + k] = b >> k & 1;
        if (egl_circuit_run_plain(circuit, bytes, in, 2 * width, out, outputs) != 0) differences++;
        for (size_t k = 0; k < outputs; k++) got |= (uint64_t)out[k] << k;
        differences += got != meant(name, a, b);
    }
    printf("%u gates, %u inputs, %u differences\n", circuit[7] + 256u * circuit[8], inputs, differences);
    return differences != 0 || awaited != 0;
}
