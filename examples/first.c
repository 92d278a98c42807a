/* A first program over the library: which parameters are taken, and what word a fraction of a turn is. */
#include "egl.h"

#include <stdio.h>

int main(void) {
    /* the published 128-bit set, and the same with one mask word too many */
    egl_answer good = egl_params_check(700, 10, 6, 3, 2, 9);
    egl_answer bad = egl_params_check(1101, 10, 6, 3, 2, 9);
    printf("128-bit set: %u, n 1,101: refused %u\n", EGL_NUMBER(good), EGL_NUMBER(bad));

    double turns[3] = {-0.125, 1.75, 0.25};
    uint32_t words[3] = {0, 0, 0};
    egl_answer done = egl_utils_f64_to_torus_vec(turns, 3, words, 3);
    for (int i = 0; i < 3; i++) {
        printf("%g of a turn is %08X, and back %g\n", turns[i], words[i], egl_utils_torus_to_f64(words[i]));
    }
    return EGL_NUMBER(good) == 0 && EGL_NUMBER(bad) == 1 && EGL_NUMBER(done) == 0 && words[0] == 0xE0000000 && words[1] == 0xC0000000 ? 0 : 1;
}
