/* What the examples share: words from the system's random source, keys, a practice set's noise and fresh ciphertexts made of them, answers that must not be refusals and
 * answers that must be. */
#ifndef EXAMPLES_COMMON_H
#define EXAMPLES_COMMON_H

#include "egl.h"

#include <stdio.h>
#include <stdlib.h>

/* So many random words. */
static inline void draw(uint32_t *to, size_t count) {
    static FILE *source;
    if (!source) source = fopen("/dev/urandom", "rb");
    if (!source || fread(to, 4, count, source) != count) exit(3);
}

/* A secret key: words 0 or 1. */
static inline void draw_key(uint32_t *to, size_t count) {
    draw(to, count);
    for (size_t i = 0; i < count; i++) to[i] &= 1;
}

/* From -8 to 7 units of 2^-32: enough for a practice set, and no more than that. */
static inline void draw_noise(uint32_t *to, size_t count) {
    draw(to, count);
    for (size_t i = 0; i < count; i++) to[i] = (to[i] & 15) - 8;
}

/* The answer of a call that must do its work. */
static inline egl_answer done(const char *what, egl_answer a) {
    if (EGL_NUMBER(a) != 0) {
        printf("%s: refused %u at %u\n", what, EGL_NUMBER(a), EGL_PLACE(a));
        exit(1);
    }
    return a;
}

/* Prints a refusal; 1 where another answer is due. */
static inline int refused(const char *what, egl_answer got, egl_answer due) {
    printf("%s: refused %u at %u\n", what, EGL_NUMBER(got), EGL_PLACE(got));
    return got != due;
}

/* So many elements, and never none: a buffer of length 0 has an address here too. */
static inline void *room(size_t count, size_t size) {
    void *p = calloc(count + 1, size);
    if (!p) exit(3);
    return p;
}

/* The six numbers, as a function with EGL_PARAMS passes them on. */
#define NUMBERS n, nbit, bgbit, l, basebit, t

/* A practice set's keys: the secret ones, n and 2^nbit words, and under them the switching key (EGL_SWITCHING_WORDS) and the bootstrapping key
 * (EGL_BOOTSTRAPPING_WORDS). */
static inline void draw_keys(EGL_PARAMS, uint32_t *key0, uint32_t *key1, uint32_t *ksk, uint32_t *bsk) {
    size_t N = (size_t)1 << nbit, masks_len = EGL_SWITCHING_MASKS(NUMBERS), noise_len = EGL_SWITCHING_NOISE(NUMBERS);
    draw_key(key0, n);
    draw_key(key1, N);
    uint32_t *masks = room(masks_len, sizeof *masks), *noise = room(noise_len, sizeof *noise);
    draw(masks, masks_len);
    draw_noise(noise, noise_len);
    done("switching key", egl_key_gen_key_switching_key(NUMBERS, key0, n, key1, N, masks, masks_len, noise, noise_len, ksk, EGL_SWITCHING_WORDS(NUMBERS)));
    free(masks);
    free(noise);
    masks_len = EGL_BOOTSTRAPPING_MASKS(NUMBERS);
    masks = room(masks_len, sizeof *masks), noise = room(masks_len, sizeof *noise);
    draw(masks, masks_len);
    draw_noise(noise, masks_len);
    done("bootstrapping key", egl_trgsw_gen_bootstrapping_key(NUMBERS, key0, n, key1, N, masks, masks_len, noise, masks_len, bsk, EGL_BOOTSTRAPPING_WORDS(NUMBERS)));
    free(masks);
    free(noise);
}

/* A fresh ciphertext of a bit, n + 1 words. */
static inline void encrypt(EGL_PARAMS, uint32_t bit, const uint32_t *key0, uint32_t *to) {
    uint32_t noise, *masks = room(n, sizeof *masks);
    draw(masks, n);
    draw_noise(&noise, 1);
    done("encryption", egl_tlwe_encrypt_bit_lv0(NUMBERS, bit, masks, n, noise, key0, n, to, (size_t)n + 1));
    free(masks);
}

#endif
