/* Stands in for the library's lookup tables, so that the group tables of the harness can itself be tried: the environment's FAULT names a planted fault, which the group has to see. See
 * oracle/faults. A drift is what a phase leaves beside the word that it should carry, which the harness's reckoning, step by step, has to meet. */
#include <stdint.h>
#include <stdlib.h>
#include <string.h>

static int fault(const char *name) {
    static const char *planted;
    if (!planted) planted = getenv("FAULT") ? getenv("FAULT") : "";
    return !strcmp(planted, name);
}

#define PARAMS uint32_t n, uint32_t nbit, uint32_t bgbit, uint32_t l, uint32_t basebit, uint32_t t
#define P n, nbit, bgbit, l, basebit, t
#define UNUSED (void)n, (void)nbit, (void)bgbit, (void)l, (void)basebit, (void)t

enum { MOST = 1024 };
typedef struct { uint32_t a[MOST], b[MOST]; } pair;

static int in_range(PARAMS) {
    return n >= 1 && n <= 1100 && nbit >= 1 && nbit <= 10 && bgbit >= 1 && bgbit <= 24 && l >= 1 && (uint64_t)l * bgbit <= 32 && basebit >= 1 && basebit <= 6 && t >= 1
        && (uint64_t)basebit * t <= 30;
}

static size_t switching_words(PARAMS) {
    UNUSED;
    return ((size_t)t << nbit) * (((size_t)1 << basebit) - 1) * (n + 1);
}

static size_t bootstrapping_words(PARAMS) {
    UNUSED;
    return (size_t)n * 4 * l << nbit;
}

static int binary(const uint32_t *key, size_t len) {
    for (size_t i = fault("first-key-word-unread"); i + fault("last-key-word-unread") < len; i++)
        if (key[i] > 1) return 0;
    return 1;
}

/* ---- moduli and tables ---- */

static int message_modulus(uint64_t modulus) {
    if (fault("modulus-128-taken") && modulus == 128) return 1;
    if (fault("modulus-1-taken") && modulus == 1) return 1;
    if (fault("modulus-64-refused") && modulus == 64) return 0;
    if (fault("modulus-in-32-bits")) modulus = (uint32_t)modulus;
    return modulus == 2 || modulus == 4 || modulus == 8 || modulus == 16 || modulus == 32 || modulus == 64;
}

static int table_modulus(uint32_t nbit, uint64_t modulus) {
    uint64_t ring = (uint64_t)1 << nbit;
    if (fault("modulus-without-division")) return message_modulus(modulus);
    if (fault("modulus-divides-alone")) return message_modulus(modulus) && ring % modulus == 0;
    if (fault("four-times-divides")) return message_modulus(modulus) && ring % (4 * modulus) == 0;
    if (fault("division-alone")) return modulus && modulus < ring && ring % (2 * modulus) == 0;
    return message_modulus(modulus) && ring % (2 * modulus) == 0;
}

/* Whether the table has not the length that it should have. */
static int table_length(uint64_t modulus, size_t len, int legal) {
    if (fault("longer-table-taken") && len > modulus && legal) return 0;
    if (fault("table-length-in-32-bits")) return (uint32_t)modulus != len;
    if (fault("length-of-legal-moduli-alone") && !legal) return 0;
    return len != modulus;
}

static void vector_of(uint32_t nbit, uint64_t modulus, const uint32_t *table, uint32_t *b) {
    /* one more than N/2 would be no fault: i * M + N/2 is a multiple of M, which is at least 2, and so are the multiples of N */
    uint64_t ring = (uint64_t)1 << nbit, half = fault("half-step-forgotten") ? 0 : fault("half-step-less-one") ? ring / 2 - 1 : ring / 2;
    for (uint64_t i = 0; i < ring; i++) {
        uint64_t j = ((fault("coefficients-from-1") ? i + 1 : i) * modulus + half) / ring;
        if (fault("index-one-off")) j = j + 1 > modulus ? 1 : j + 1;
        uint32_t first = fault("f-0-complemented") ? ~table[0] : fault("f-0-positive") ? table[0] : fault("f-0-is-the-last-again") ? table[modulus - 1] : 0u - table[0];
        b[i] = j < modulus ? table[j] : first;
        if (fault("last-word-negated") && j == modulus - 1) b[i] = 0u - b[i];
    }
}

/* ---- the rotation ---- */

static void rotated(uint32_t ring, const uint32_t *from, uint32_t k, uint32_t *to) {
    for (uint32_t i = 0; i < ring; i++) {
        uint32_t place = (i + k) % (2 * ring);
        to[place % ring] = place < ring ? from[i] : fault("wrap-negated") ? 0u - from[i] : ~from[i];
    }
}

static void times(uint32_t ring, const uint32_t *x, const uint32_t *y, uint32_t *sum) {
    for (uint32_t i = 0; i < ring; i++)
        if (x[i])
            for (uint32_t j = 0; j < ring; j++) {
                if (i + j < ring) sum[i + j] += x[i] * y[j];
                else sum[i + j - ring] -= x[i] * y[j];
            }
}

static uint32_t mask_amount(uint32_t nbit, uint32_t word) {
    return (fault("masks-not-rounded") ? word : word + (1u << (30 - nbit))) >> (31 - nbit);
}

static uint32_t body_amount(uint32_t nbit, uint32_t word) {
    return (2u << nbit) - (uint32_t)(((uint64_t)word + (1u << (30 - nbit))) >> (31 - nbit));
}

/* One step: the turned accumulator less the accumulator is worked out first, then the products are added to it. */
static void step(PARAMS, const uint32_t *rows, uint32_t mask, pair *at) {
    UNUSED;
    static _Thread_local pair turned;
    static _Thread_local uint32_t digits[MOST];
    uint32_t ring = 1u << nbit, k = mask_amount(nbit, mask), offset = 0;
    for (uint32_t i = 0; i < l; i++) offset += 1u << (31 - i * bgbit);
    rotated(ring, at->a, k, turned.a);
    rotated(ring, at->b, k, turned.b);
    for (uint32_t i = 0; i < ring; i++) turned.a[i] -= at->a[i], turned.b[i] -= at->b[i];
    for (uint32_t r = 0; r < 2 * l; r++) {
        const uint32_t *half = r < l ? turned.a : turned.b, *row = rows + ((size_t)r * 2 << nbit);
        for (uint32_t i = 0; i < ring; i++) digits[i] = (((half[i] + offset) >> (32 - (r % l + 1) * bgbit)) & ((1u << bgbit) - 1)) - (1u << (bgbit - 1));
        times(ring, digits, row, at->a);
        times(ring, digits, row + ring, at->b);
    }
}

static void rotate(PARAMS, const uint32_t *src, const uint32_t *va, const uint32_t *vb, const uint32_t *key, pair *at) {
    uint32_t ring = 1u << nbit, k = body_amount(nbit, src[n]);
    rotated(ring, va, k, at->a);
    rotated(ring, vb, k, at->b);
    for (uint32_t i = fault("first-mask-left-out"); i + fault("last-mask-left-out") < n; i++) step(P, key + ((size_t)i * 4 * l << nbit), src[i], at);
}

static void switched(PARAMS, const pair *at, const uint32_t *ksk, uint32_t *out) {
    UNUSED;
    uint32_t ring = 1u << nbit, base = 1u << basebit;
    memset(out, 0, 4 * (size_t)n);
    out[n] = at->b[fault("extracted-at-1") ? 1 : 0];
    for (uint32_t i = 0; i < ring; i++) {
        uint32_t mask = i ? fault("extraction-negates") ? 0u - at->a[ring - i] : ~at->a[ring - i] : at->a[0];
        mask += fault("switching-not-rounded") ? 0 : 1u << (31 - basebit * t);
        for (uint32_t j = 0; j < t; j++) {
            uint32_t k = mask >> (32 - (j + 1) * basebit) & (base - 1);
            if (!k) continue;
            const uint32_t *row = ksk + ((size_t)(base - 1) * ((size_t)t * i + j) + k - 1) * (n + 1);
            for (uint32_t x = 0; x <= n; x++) out[x] -= row[x];
        }
    }
}

static void look_up(PARAMS, uint64_t modulus, const uint32_t *table, const uint32_t *c, const uint32_t *ksk, const uint32_t *bsk, uint32_t *out) {
    static _Thread_local pair at;
    static _Thread_local uint32_t va[MOST], vb[MOST];
    uint32_t ring = 1u << nbit;
    vector_of(nbit, modulus, table, vb);
    if (fault("lookup-rotates-the-gates-vector"))
        for (uint32_t i = 0; i < ring; i++) vb[i] = 1u << 29;
    rotate(P, c, va, vb, bsk, &at);
    switched(P, &at, ksk, out);
}

/* ---- drifts ---- */

static uint32_t phase(uint32_t n, const uint32_t *c, const uint32_t *key) {
    uint32_t sum = c[n];
    for (uint32_t i = 0; i < n; i++) sum -= c[i] * key[i];
    return sum;
}

static uint32_t remainder_of(uint32_t nbit, uint32_t word) {
    return (uint32_t)(((uint64_t)word + (1u << (30 - nbit))) >> (31 - nbit) << (31 - nbit)) - word;
}

static uint32_t message_word(uint64_t value, uint64_t modulus) {
    if (fault("message-at-most-the-last")) value = value < modulus ? value : modulus - 1;
    else if (!fault("message-not-reduced")) value %= modulus;
    return (uint32_t)(value * (((uint64_t)1 << (fault("message-in-a-whole-turn") ? 32 : 31)) / modulus));
}

static uint32_t brought_in(PARAMS, uint64_t modulus, uint64_t value, const uint32_t *c, const uint32_t *key) {
    UNUSED;
    uint32_t drift = phase(n, c, key) - message_word(value, modulus);
    if (fault("brought-in-without-rounding")) return drift;
    if (!fault("b-not-rounded")) drift += remainder_of(nbit, c[n]);
    for (uint32_t i = 0; i < n; i++) {
        uint32_t masks = remainder_of(nbit, c[i]) * (fault("every-mask-counts") ? 1 : key[i]);
        drift = fault("masks-added") ? drift + masks : drift - masks;
    }
    return drift;
}

/* What the output's phase leaves beside the word that the rounded phase takes. */
static uint32_t output_drift(PARAMS, uint64_t modulus, const uint32_t *table, uint64_t value, const uint32_t *c, const uint32_t *out, const uint32_t *key, const uint32_t *z) {
    UNUSED;
    static _Thread_local uint32_t vb[MOST];
    uint32_t ring = 1u << nbit, turns = body_amount(nbit, c[n]);
    vector_of(nbit, modulus, table, vb);
    for (uint32_t i = 0; i < n; i++) turns += key[i] * mask_amount(nbit, c[i]);
    uint32_t place = (0u - turns) % (2 * ring), word = place < ring ? vb[place] : 0u - vb[place - ring];
    if (fault("complemented-word-taken") && place >= ring) word = ~vb[place - ring];
    if (fault("drift-beside-the-told-word")) word = table[value % modulus];
    uint32_t drift = phase(n, out, key) - word, ones = 0;
    for (uint32_t i = 1; i < ring; i++) ones += z[i];
    return fault("ones-of-z-forgotten") ? drift - ones : fault("first-one-counted") ? drift + z[0] : drift;
}

static int within(uint32_t drift, uint64_t modulus) {
    uint32_t size = drift >> 31 ? 0u - drift : drift, bound = (uint32_t)(((uint64_t)1 << 30) / modulus);
    if (fault("one-sided-margin")) return drift >> 31 || size < bound;
    if (fault("margin-closed-below")) return drift + bound < 2 * bound;
    if (fault("margin-closed-above")) return drift + bound - 1 < 2 * bound;
    if (fault("least-drift-inside")) return (int32_t)size < (int32_t)bound;
    return fault("on-the-margin-taken") ? size <= bound : size < bound;
}

/* ---- the four functions ---- */

uint64_t egl_table_testvec(PARAMS, uint64_t modulus, const uint32_t *table, size_t table_len, uint32_t *a, size_t a_len, uint32_t *b, size_t b_len) {
    if (!in_range(P)) return 1;
    size_t ring = (size_t)1 << nbit;
    int legal = table_modulus(nbit, modulus);
    if (fault("5-before-2") && !legal) return 5;
    if (table_length(modulus, table_len, legal) || a_len != ring || (b_len != ring && !(fault("longer-b-taken") && b_len > ring))) {
        if (fault("2-writes") && a_len) a[0] = 0;
        return 2;
    }
    if (!legal) {
        if (fault("5-writes") && a_len) a[0] ^= 1;
        return 5 | (fault("value-beside-5") ? 1ull << 32 : 0);
    }
    if (!fault("a-unwritten")) memset(a, 0, 4 * ring);
    vector_of(nbit, modulus, table, b);
    if (fault("table-written")) ((uint32_t *)table)[0] ^= 1;
    return 0;
}

uint64_t egl_trgsw_blind_rotate_with_testvec(PARAMS, const uint32_t *src, size_t src_len, const uint32_t *va, size_t va_len, const uint32_t *vb, size_t vb_len, const uint32_t *key, size_t key_len, uint32_t *a, size_t a_len, uint32_t *b, size_t b_len) {
    static _Thread_local pair at;
    static _Thread_local uint32_t other[MOST];
    if (!in_range(P)) return 1;
    size_t ring = (size_t)1 << nbit;
    int vectors = va_len == ring && (vb_len == ring || (fault("longer-vector-taken") && vb_len > ring));
    if (src_len != (size_t)n + 1 || !vectors || key_len != bootstrapping_words(P) || a_len != ring || b_len != ring) {
        if (fault("rotation-refused-writes") && b_len) b[b_len - 1] ^= 1;
        return 2;
    }
    if (fault("rotation-of-the-gates-vector") || fault("a-of-the-vector-ignored")) {
        memset(other, 0, sizeof other);
        va = other;
    }
    if (fault("rotation-of-the-gates-vector")) {
        for (size_t i = 0; i < ring; i++) at.b[i] = 1u << 29;
        memcpy(b, at.b, 4 * ring);
        vb = b;
    }
    if (fault("vector-halves-swapped")) rotate(P, src, vb, va, key, &at);
    else rotate(P, src, va, vb, key, &at);
    if (fault("rotation-swaps-a-and-b")) {
        uint32_t *swap = a;
        a = b, b = swap;
    }
    memcpy(a, at.a, 4 * ring);
    if (!fault("rotation-leaves-b")) memcpy(b, at.b, 4 * ring);
    if (fault("vector-written")) ((uint32_t *)va)[0] ^= 1;
    return 0;
}

uint64_t egl_lookup(PARAMS, uint64_t modulus, const uint32_t *table, size_t table_len, const uint32_t *c, size_t c_len, const uint32_t *ksk, size_t ksk_len, const uint32_t *bsk, size_t bsk_len, uint32_t *out, size_t out_len) {
    static _Thread_local uint32_t made[1101];
    if (!in_range(P)) return 1;
    int legal = table_modulus(nbit, modulus), length = table_length(modulus, table_len, legal);
    if (fault("lookup-5-before-2") && !legal) return 5;
    if (fault("lookup-former-key-taken") && ksk_len > switching_words(P)) ksk_len = switching_words(P);
    if (fault("lookup-longer-c-taken") && c_len > n) c_len = n + 1;
    if (length || c_len != (size_t)n + 1 || ksk_len != switching_words(P) || bsk_len != bootstrapping_words(P) || out_len != (size_t)n + 1) {
        if (fault("lookup-2-writes") && out_len) out[0] ^= 1;
        return 2 | (fault("value-beside-2") ? 1ull << 32 : 0);
    }
    if (!legal) {
        if (fault("lookup-5-writes")) out[n] ^= 1;
        return 5;
    }
    look_up(P, modulus, table, c, ksk, bsk, made);
    if (!fault("lookup-leaves-out")) memcpy(out, made, 4 * (size_t)(n + 1 - fault("last-word-of-out-left")));
    if (fault("c-written")) ((uint32_t *)c)[n] ^= 1;
    if (fault("lookup-gives-a-value")) return 1ull << 32;
    return 0;
}

uint64_t egl_lookup_drift(PARAMS, uint64_t modulus, const uint32_t *table, size_t table_len, uint64_t results, uint64_t value, const uint32_t *ksk, size_t ksk_len, const uint32_t *bsk, size_t bsk_len, const uint32_t *key, size_t key_len, const uint32_t *z, size_t z_len, const uint32_t *c, size_t c_len, uint32_t *out, size_t out_len, uint32_t *drifts, size_t drifts_len) {
    static _Thread_local uint32_t made[1101];
    if (!in_range(P)) return 1;
    int legal = table_modulus(nbit, modulus), length = table_length(modulus, table_len, legal);
    int judged = fault("results-as-a-table") ? table_modulus(nbit, results) : fault("results-unchecked") ? results != 0 : message_modulus(results);
    int secret = (fault("z-unchecked") || (z_len == (size_t)1 << nbit && binary(z, z_len))) && (fault("key-unchecked") || (key_len == n && binary(key, key_len)));
    if (fault("drift-5-before-2") && !legal) return 5;
    if (fault("longer-drifts-taken") && drifts_len > 2) drifts_len = 2;
    if (length || c_len != (size_t)n + 1 || ksk_len != switching_words(P) || bsk_len != bootstrapping_words(P) || key_len != n || z_len != (size_t)1 << nbit || out_len != (size_t)n + 1
        || drifts_len != 2) {
        if (fault("drift-2-writes") && drifts_len) drifts[0] ^= 1;
        return 2;
    }
    if (fault("5-before-4") && (!legal || !judged)) return 5;
    if (!secret) {
        if (fault("4-writes")) out[0] ^= 1;
        return 4;
    }
    if (!legal || !judged) {
        if (fault("drift-5-writes")) drifts[1] ^= 1;
        return 5 | (fault("drift-value-beside-5") ? 1ull << 32 : 0);
    }
    look_up(P, modulus, table, c, ksk, bsk, made);
    uint32_t brought = brought_in(P, modulus, value, c, key), drift = output_drift(P, modulus, table, value, c, made, key, z);
    int in = within(brought, modulus), kept = within(drift, fault("margin-of-the-table-for-results") ? modulus : results);
    if (fault("margin-of-results-for-the-message")) in = within(brought, results);
    if (fault("margins-not-halved")) in = within(brought, modulus / 2), kept = within(drift, results / 2);
    if (!fault("drift-leaves-out")) memcpy(out, made, 4 * (size_t)(n + 1));
    drifts[fault("drifts-swapped")] = fault("own-drift-told") ? phase(n, c, key) - message_word(value, modulus) : brought;
    drifts[!fault("drifts-swapped")] = drift;
    if (fault("switching-key-written")) ((uint32_t *)ksk)[ksk_len - 1] ^= 1;
    if (fault("sizes-told"))
        for (int i = 0; i < 2; i++) drifts[i] = drifts[i] >> 31 ? 0u - drifts[i] : drifts[i];
    int told = fault("brought-in-alone") ? in : fault("output-alone") ? kept : fault("either-inside") ? in || kept : fault("always-inside") ? 1 : fault("never-inside") ? 0 : in && kept;
    return (uint64_t)told << 32;
}
