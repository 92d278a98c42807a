/* Stands in for the library's reports of drifts, so that the group drift_report of the harness can itself be tried: the environment's FAULT names a planted fault, which the
 * group has to see. See oracle/faults. */
#include <stdint.h>
#include <stdlib.h>
#include <string.h>

enum { SIZES = 33, LARGEST = 33, WIRE = 34, TOTAL = 35, WORDS = 36 };

static int fault(const char *name) {
    static const char *planted;
    if (!planted) planted = getenv("FAULT") ? getenv("FAULT") : "";
    return !strcmp(planted, name);
}

/* The most wires of a report. */
enum { MOST = 65535 };

/* ---- drifts ---- */

static uint32_t absolute(uint32_t drift) {
    if (fault("complement-for-minus") && drift >> 31) return ~drift;
    return drift >> 31 ? 0u - drift : drift;
}

static unsigned bits(uint32_t value) {
    unsigned count = 0;
    for (; value; value >>= 1) count++;
    return count;
}

static unsigned size_of(uint32_t drift) {
    if (fault("least-drift-at-31") && drift == 1u << 31) return 31;
    if (fault("zero-has-size-1") && !drift) return 1;
    return bits(fault("size-of-the-word") ? drift : absolute(drift));
}

/* By what two drifts are compared. */
static uint32_t rank(uint32_t drift) {
    if (fault("least-ties-with-most") && drift == 1u << 31) return INT32_MAX;
    if (fault("largest-by-word")) return drift;
    if (fault("largest-by-sign")) return drift ^ 1u << 31;
    return fault("largest-by-bits") ? bits(absolute(drift)) : absolute(drift);
}

/* ---- the three functions ---- */

uint64_t egl_drift_report_empty(uint32_t *out, size_t out_len) {
    if (out_len != WORDS && !fault("empty-of-any-length")) {
        if (fault("empty-refused-writes") && out_len) out[0] = 0;
        return 2;
    }
    for (size_t i = fault("empty-not-all"); i < out_len; i++) out[i] = 0;
    return 0;
}

uint64_t egl_drift_report_of(const uint32_t *drifts, size_t len, uint32_t *out, size_t out_len) {
    int many = (fault("length-in-16-bits") ? len & 65535 : len) > (size_t)(MOST - fault("most-wires-refused") + fault("a-wire-too-many"));
    if (fault("13-before-2") && many) return 13;
    if (out_len != WORDS && !(fault("longer-out-taken") && out_len > WORDS)) {
        if (fault("2-writes") && out_len) out[out_len - 1] ^= 1;
        return 2;
    }
    if (many) {
        if (fault("13-writes")) memset(out, 0, 4 * WORDS);
        return 13 | (fault("place-beside-13") ? 1ull << 32 : 0);
    }
    size_t first = fault("first-wire-left-out"), end = len - (fault("last-wire-left-out") && len);
    memset(out, 0, 4 * TOTAL);
    if (!fault("total-not-written")) out[TOTAL] = len;
    for (size_t i = first; i < end; i++) {
        uint32_t *count = &out[size_of(drifts[i])];
        *count = fault("counts-in-8-bits") ? (*count + 1) & 255 : *count + 1;
    }
    size_t lead = first;
    for (size_t i = first + 1; i < end; i++) {
        int ahead = rank(drifts[i]) > rank(drifts[lead]);
        if (ahead || (fault("latest-at-a-tie") && rank(drifts[i]) == rank(drifts[lead]))) lead = i;
    }
    if (first < end) {
        out[LARGEST] = fault("absolute-value-kept") ? absolute(drifts[lead]) : drifts[lead];
        out[WIRE] = lead + fault("wires-from-1");
    }
    if (fault("drifts-written") && len) ((uint32_t *)drifts)[0] ^= 1;
    return 0;
}

uint64_t egl_drift_report_merge(const uint32_t *first, size_t first_len, const uint32_t *second, size_t second_len, uint32_t *out, size_t out_len) {
    uint64_t limit = MOST - fault("merge-to-most-refused") + fault("merge-to-a-wire-too-many");
    if (fault("merge-shorter-first") ? first_len > WORDS || second_len != WORDS || out_len != WORDS : first_len != WORDS || second_len != WORDS || out_len != WORDS) {
        if (fault("merge-13-before-2") && first_len >= WORDS && second_len >= WORDS && (uint64_t)first[TOTAL] + second[TOTAL] > limit) return 13;
        if (fault("merge-2-writes") && out_len) out[0] ^= 1;
        return 2;
    }
    if (first_len != WORDS) return 0;
    uint64_t total = (uint64_t)first[TOTAL] + second[TOTAL];
    if (fault("merge-totals-in-32-bits")) total = (uint32_t)total;
    if (fault("merge-totals-one-by-one")) total = first[TOTAL] > MOST || second[TOTAL] > MOST ? MOST + 1 : 0;
    if (fault("merge-refuses-junk") && first[TOTAL] && first[WIRE] >= first[TOTAL]) total = MOST + 1;
    if (total > limit) {
        if (fault("merge-13-writes")) memset(out, 0, 4 * WORDS);
        return 13 | (fault("merge-place-beside-13") ? 1ull << 32 : 0);
    }
    for (int i = 0; i < SIZES - fault("merge-last-count-left"); i++) {
        out[i] = first[i] + second[i];
        if (fault("merge-counts-saturate") && out[i] < first[i]) out[i] = UINT32_MAX;
    }
    uint32_t a = rank(first[LARGEST]), b = rank(second[LARGEST]);
    int greater = b > a || (fault("merge-tie-to-second") && b == a);
    int taken = (second[TOTAL] || fault("merge-second-of-no-wires")) && ((!first[TOTAL] && !fault("merge-first-of-no-wires-kept")) || greater);
    if (fault("merge-second-where-both-empty") && !first[TOTAL] && !second[TOTAL]) taken = 1;
    uint32_t moved = fault("merge-wire-not-moved") ? 0 : fault("merge-moved-by-second") ? second[TOTAL] : first[TOTAL];
    uint32_t wire = moved + second[WIRE];
    if (fault("merge-wire-saturates") && wire < moved) wire = UINT32_MAX;
    if (fault("merge-wire-in-16-bits")) wire &= 65535;
    out[LARGEST] = (taken ? second : first)[LARGEST];
    out[WIRE] = taken ? wire : first[WIRE] + (fault("merge-first-moved") ? first[TOTAL] : 0);
    out[TOTAL] = first[TOTAL] + second[TOTAL];
    if (fault("merge-writes-first")) ((uint32_t *)first)[0] ^= 1;
    return 0;
}
