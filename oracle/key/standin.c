/* Stands in for the library's switching key, its generation, the lookups of its rows and the dropping of a former key's idle rows, so that the group key of the harness can itself be
 * tried: the environment's FAULT names a planted fault, which the group has to see. See oracle/faults. */
#include <stdint.h>
#include <stdlib.h>
#include <string.h>

static int fault(const char *name) {
    static const char *planted;
    if (!planted) planted = getenv("FAULT") ? getenv("FAULT") : "";
    return !strcmp(planted, name);
}

#define PARAMS uint32_t n, uint32_t nbit, uint32_t bgbit, uint32_t l, uint32_t basebit, uint32_t t
#define P n, nbit, bgbit, l, basebit, t

static int in_range(PARAMS) {
    return n >= 1 && n <= 1100 && nbit >= 1 && nbit <= 10 && bgbit >= 1 && bgbit <= 24 && l >= 1 && (uint64_t)l * bgbit <= 32 && basebit >= 1 && basebit <= 6 && t >= 1
        && (uint64_t)basebit * t <= 30;
}

/* ---- lengths and places; the parameters are in range ---- */

static size_t rows_of(PARAMS, int idle) {
    (void)n, (void)bgbit, (void)l;
    return ((size_t)t << nbit) * (((size_t)1 << basebit) - !idle);
}

static size_t words_of(PARAMS, int idle) {
    return rows_of(P, idle) * (n + 1);
}

static size_t place_of(PARAMS, size_t i, size_t j, size_t k) {
    (void)n, (void)bgbit, (void)l;
    size_t digits = ((size_t)1 << basebit) - 1;
    if (fault("former-place")) return (digits + 1) * (t * i + j) + k;
    if (fault("row-one-off")) return digits * (t * i + j) + k;
    if (fault("row-one-off-at-1") && k == 1) return digits * (t * i + j) + k;
    if (fault("fields-first")) return digits * (((size_t)j << nbit) + i) + k - 1;
    if (fault("digits-first")) return ((size_t)t << nbit) * (k - 1) + t * i + j;
    return digits * (t * i + j) + k - 1;
}

static size_t former_place(PARAMS, size_t i, size_t j, size_t k) {
    (void)n, (void)nbit, (void)bgbit, (void)l;
    size_t at = (((size_t)1 << basebit) * (t * i + j)) + k;
    if (fault("idle-row-for-the-first") && k == 1) return at - 1;
    return fault("idle-row-last") ? at - 1 : at;
}

/* ---- the four functions ---- */

static uint32_t lookup(PARAMS, size_t words, size_t i, size_t j, size_t k) {
    size_t digit = fault("low-bits-of-k") ? (uint32_t)k : k;
    int wrong = i >= (size_t)1 << nbit || j >= t || (digit == 0 && !fault("k-0-taken") && !fault("k-0-is-k-1")) || digit >= ((size_t)1 << basebit) + fault("k-base-taken");
    int length = words != words_of(P, 0) && !(fault("former-key-looked-up") && words == words_of(P, 1));
    if (fault("3-before-2") && wrong) return 3;
    return length ? 2 : wrong ? 3 : 0;
}

uint64_t egl_key_switching_row_answer(PARAMS, size_t words, size_t i, size_t j, size_t k) {
    if (!in_range(P)) return 1;
    return lookup(P, words, i, j, fault("answer-at-k-0") && k == 0 ? 1 : k);
}

uint64_t egl_key_row_index(PARAMS, size_t i, size_t j, size_t k) {
    if (!in_range(P)) return 1;
    uint32_t number = lookup(P, words_of(P, 0), i, j, k);
    if (fault("place-beside-3") && number == 3) return (uint64_t)(uint32_t)place_of(P, i, j, k) << 32 | number;
    if (number) return number;
    return (uint64_t)(uint32_t)place_of(P, i, j, fault("k-0-is-k-1") && k == 0 ? 1 : k) << 32;
}

uint64_t egl_key_drop_idle_rows(PARAMS, const uint32_t *former, size_t former_len, uint32_t *out, size_t out_len) {
    if (fault("2-before-1") && (!former_len || !out_len)) return 2;
    if (!in_range(P)) return 1;
    int short_key = former_len != words_of(P, 1), short_out = out_len != words_of(P, 0);
    if (fault("todays-key-taken") && former_len == words_of(P, 0) && !short_out) {
        memcpy(out, former, 4 * out_len);
        return 0;
    }
    if (fault("longer-key-taken") && former_len > words_of(P, 1)) short_key = 0;
    if (fault("longer-out-taken") && out_len > words_of(P, 0)) short_out = 0;
    if (short_key || short_out) {
        if (fault("refused-writes") && out_len) out[out_len - 1] ^= 1;
        return 2;
    }
    size_t width = n + 1, base = (size_t)1 << basebit, copied = width - fault("masks-alone");
    for (size_t i = 0; i < (size_t)1 << nbit; i++)
        for (size_t j = 0; j < t; j++)
            for (size_t k = 1; k < base; k++) {
                size_t to = (base - 1) * (t * i + j) + k - 1;
                if (fault("last-row-left") && to + 1 == rows_of(P, 0)) continue;
                const uint32_t *row = former + former_place(P, i, j, k) * width, *idle = former + base * (t * i + j) * width;
                for (size_t x = 0; x < copied; x++) out[to * width + x] = row[x] + (fault("idle-row-added") ? idle[x] : 0);
            }
    return 0;
}

static int binary(const uint32_t *key, size_t len) {
    for (size_t i = 0; i < len; i++)
        if (key[i] > 1) return 0;
    return 1;
}

uint64_t egl_key_gen_key_switching_key(PARAMS, const uint32_t *key0, size_t key0_len, const uint32_t *key1, size_t key1_len, const uint32_t *masks, size_t masks_len, const uint32_t *noise, size_t noise_len, uint32_t *out, size_t out_len) {
    if (!in_range(P)) return 1;
    size_t width = n + 1, base = (size_t)1 << basebit, rows = rows_of(P, 0);
    int former = fault("former-key-made") && out_len == words_of(P, 1);
    if (key0_len != n || key1_len != (size_t)1 << nbit || masks_len != rows * n || noise_len != rows || (out_len != rows * width && !former)) return 2;
    if (!binary(key0, key0_len) || !binary(key1, key1_len)) return 4;
    for (size_t i = 0, r = 0; i < key1_len; i++)
        for (size_t j = 0; j < t; j++)
            for (size_t k = 1; k < base; k++, r++) {
                uint32_t carried = (uint32_t)(k - fault("digits-from-0")) * key1[i] << (32 - (j + 1) * basebit), sum = carried + noise[r];
                uint32_t *to = out + (former ? base * (t * i + j) + k : r) * width;
                for (size_t x = 0; x < n; x++) {
                    to[x] = masks[r * n + x];
                    sum += masks[r * n + x] * key0[x];
                }
                to[n] = sum;
            }
    return 0;
}
