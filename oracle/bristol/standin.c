/* Stands in for the library's import and export, so that the group bristol of the harness can itself be tried: the environment's FAULT names a planted
 * fault, which the group has to see. See oracle/faults. It allocates and has no limits of its own, as a program written in an afternoon has none. */
#include <stdint.h>
#include <stdio.h>
#include <stdlib.h>
#include <string.h>

static int fault(const char *name) {
    static const char *planted;
    if (!planted) planted = getenv("FAULT") ? getenv("FAULT") : "";
    return !strcmp(planted, name);
}

static uint64_t answer(uint64_t number, uint64_t high) { return number | high << 32; }

/* ---- tokens ---- */

typedef struct { const uint8_t *text; size_t len, at, place; } reader;

static int blank(uint8_t c) { return c == ' ' || c == '\t' || c == '\r' || c == '\n' || (c == '\f' && fault("form-feed-is-blank")); }

/* The next token's length, 0 where the text ends; its place is kept. */
static size_t token(reader *r) {
    while (r->at < r->len && blank(r->text[r->at])) r->at++;
    r->place = r->at;
    while (r->at < r->len && !blank(r->text[r->at])) r->at++;
    return r->at - r->place;
}

static int number(reader *r, uint64_t *value) {
    size_t n = token(r);
    const uint8_t *t = r->text + r->place;
    if (!n || (n > 10 && fault("long-zeros-refused"))) return 0;
    *value = 0;
    for (size_t i = 0; i < n; i++) {
        if (t[i] < '0' || t[i] > '9') return 0;
        *value = *value * 10 + (t[i] - '0');
        if (*value >> 32) {
            if (!fault("number-wraps")) return 0;
            *value &= UINT32_MAX;
        }
    }
    return 1;
}

static int named(reader *r, size_t n, const char *name) {
    if (fault("name-by-its-start") && n > strlen(name)) n = strlen(name);
    return n == strlen(name) && !memcmp(r->text + r->place, name, n);
}

/* ---- wires: a table by number, each with our wire ---- */

typedef struct { uint64_t *key, *ours; size_t mask; uint64_t inputs, count; } wires;

static uint64_t *find(wires *w, uint64_t wire) {
    size_t i = (wire * 0x9E3779B97F4A7C15u >> 20) & w->mask;
    while (w->key[i] && w->key[i] != wire + 1) i = (i + 1) & w->mask;
    return &w->key[i];
}

static int set(wires *w, uint64_t wire) { return wire < w->inputs || *find(w, wire); }

static void put(wires *w, uint64_t wire, uint64_t ours) {
    uint64_t *slot = find(w, wire);
    w->count++;
    if (fault("high-wires-forgotten") && wire >= 393216) return;
    *slot = wire + 1;
    w->ours[slot - w->key] = ours;
}

static uint64_t ours(wires *w, uint64_t wire) { return wire < w->inputs ? wire : w->ours[find(w, wire) - w->key]; }

/* ---- import ---- */

typedef struct { uint64_t refused, beyond, wires, outputs; uint8_t *gates; size_t made; } taken;

static void field(uint8_t *p, uint64_t x) { p[0] = x; p[1] = x >> 8; }

/* 0, or 11 with its place; a place of 12 is kept in out->beyond. */
static uint64_t read_text(reader *r, wires *w, taken *out) {
    uint64_t gates, count, sum, x, k, told;
    size_t last;
#define BAD return answer(11, r->place + (fault("place-one-off") && r->place != 0))
#define BEYOND(at) do { if (!out->beyond) out->beyond = answer(12, at); if (fault("limit-first")) return out->beyond; } while (0)
    if (!number(r, &gates) || !number(r, &out->wires)) BAD;
    if (out->wires < gates) BAD;
    for (int side = 0; side < 2; side++) {
        if (!number(r, &count)) BAD;
        last = r->place;
        sum = 0;
        for (uint64_t i = 0; i < count; i++) {
            if (!number(r, &x)) BAD;
            last = r->place;
            sum += x;
            if (fault("sum-wraps")) sum &= UINT32_MAX;
            if (sum + (side ? 0 : gates) > out->wires) BAD;
            if (sum > (side ? (fault("65-outputs") ? 65 : 64) : (fault("257-inputs") ? 257 : 256))) BEYOND(last);
        }
        if (side) {
            out->outputs = sum;
            if (!sum && !fault("no-output")) BEYOND(last);
        } else {
            w->inputs = w->count = sum;
            r->place = last;
            if (!gates && sum != out->wires && !fault("wires-left")) BAD;
        }
    }
    for (uint64_t g = 0; g < gates; g++) {
        uint64_t later = gates - g - 1, unset = out->wires - w->count, first = 0, second = 0, result = 0;
        if (!number(r, &k)) BAD;
        if (!k || (k > 1 && k % 2)) BAD;
        uint64_t n = (k + 1) / 2;
        if (n + later > unset && !fault("k-beyond-wires")) BAD;
        if (!later && n != unset && !fault("last-k-not-held")) BAD;
        if (k > 1 && !w->count && !fault("mand-of-nothing")) BAD;
        if (!number(r, &told) || told != n) BAD;
        for (uint64_t i = 0; i < k; i++) {
            if (!number(r, &x)) BAD;
            if (!set(w, x) && !(k == 1 && x < 2) && !(fault("read-before-set") && x < out->wires)) BAD;
            if (i == 0) first = x;
            if (i == 1) second = x;
        }
        int wire = set(w, first);
        for (uint64_t i = 0; i < n; i++) {
            if (!number(r, &x)) BAD;
            if (x >= out->wires || (set(w, x) && !(fault("set-twice") && k < 3) && !(fault("set-twice-by-one") && i))) BAD;
            uint64_t own = w->inputs + out->made;
            put(w, x, own);
            result = x;
        }
        if (fault("set-by-itself")) wire = set(w, first);
        size_t len = token(r);
        int kind = -1, eqw = 0;
        if (k == 1 && wire && named(r, len, "EQW")) eqw = 1;
        else if (k == 1 && wire && named(r, len, "INV")) kind = 2;
        else if (k == 1 && first < 2 && named(r, len, "EQ")) { kind = (int)first; if (fault("constant-as-wire") && wire) eqw = 1; }
        else if (k == 2 && named(r, len, "XOR")) kind = 7;
        else if (k == 2 && named(r, len, "AND")) kind = fault("and-as-or") ? 4 : 3;
        else if (k > 1 && named(r, len, "MAND")) BEYOND(r->place);
        else BAD;
        if (eqw && fault("eqw-of-the-gate-before") && out->made) { w->ours[find(w, result) - w->key] = w->inputs + out->made - 1; continue; }
        if (eqw) { w->ours[find(w, result) - w->key] = ours(w, first); continue; }
        if (kind < 0) continue;
        if (out->made == (size_t)(fault("1023-gates") ? 1023 : fault("1025-gates") ? 1025 : 1024)) BEYOND(r->place);
        uint8_t *p = out->gates + 8 * out->made++;
        memset(p, 0, 8);
        p[0] = (uint8_t)kind;
        if (kind > 1) field(p + 2, ours(w, first));
        if (kind > 2) field(p + 4, ours(w, second));
    }
    if (token(r) && !fault("more-behind")) BAD;
    return 0;
}

uint64_t egl_bristol_import(const uint8_t *text, size_t text_len, uint8_t *out, size_t out_len) {
    reader r = { text, text_len, 0, 0 };
    wires w = { 0 };
    size_t room = 64;
    while (room < text_len) room *= 2;
    w.mask = room - 1;
    w.key = calloc(room, 8);
    w.ours = calloc(room, 8);
    taken t = { 0 };
    t.gates = calloc(text_len + 1, 8);
    uint64_t refused = read_text(&r, &w, &t);
    if (!refused) refused = t.beyond;
    size_t need = 11 + 8 * t.made + 2 * t.outputs;
    if (!refused && out_len < need && !(fault("writes-beside") && out_len + 1 == need)) refused = 2;
    if (refused && fault("refused-writes") && out_len) out[out_len - 1] ^= 1;
    if (!refused) {
        memcpy(out, "EGL", 3);
        field(out + 3, 1);
        field(out + 5, w.inputs);
        field(out + 7, t.made);
        field(out + 9, t.outputs);
        memcpy(out + 11, t.gates, 8 * t.made);
        for (uint64_t o = 0; o < t.outputs; o++) {
            uint64_t wire = t.wires - t.outputs + o;
            if (fault("output-one-off") && wire) wire--;
            field(out + 11 + 8 * t.made + 2 * o, ours(&w, wire));
        }
        if (fault("byte-behind") && out_len > need) out[need] = 0;
        if (fault("tail-cleared") && out_len > need) memset(out + need, 0, out_len - need);
        refused = answer(0, need - (fault("length-one-short") ? 1 : 0));
    }
    free(w.key); free(w.ours); free(t.gates);
    return refused;
}

/* ---- our circuits ---- */

static const int needs[14] = { 0, 0, 1, 2, 2, 2, 2, 2, 2, 2, 2, 2, 2, 3 };

static uint64_t at(const uint8_t *p) { return p[0] + 256u * p[1]; }

uint64_t egl_circuit_check(const uint8_t *b, size_t len) {
    if (len < 11) return answer(8, 0);
    if (memcmp(b, "EGL", 3)) return answer(6, 0);
    if (at(b + 3) != 1) return answer(7, 3);
    uint64_t inputs = at(b + 5), gates = at(b + 7), outputs = at(b + 9);
    if (inputs > 256) return answer(8, 5);
    if (gates > 1024) return answer(8, 7);
    if (!outputs || outputs > 64) return answer(8, 9);
    if (len != 11 + 8 * gates + 2 * outputs) return answer(8, 11);
    for (uint64_t g = 0; g < gates; g++) {
        const uint8_t *p = b + 11 + 8 * g;
        if (p[0] > 13) return answer(9, p - b);
        if (p[1]) return answer(9, p + 1 - b);
        for (int i = 0; i < 3; i++) if (at(p + 2 + 2 * i) >= (i < needs[p[0]] ? inputs + g : 1)) return answer(9, p + 2 + 2 * i - b);
    }
    for (uint64_t o = 0; o < outputs; o++) if (at(b + 11 + 8 * gates + 2 * o) >= inputs + gates) return answer(10, 11 + 8 * gates + 2 * o);
    return 0;
}

uint64_t egl_circuit_run_plain(const uint8_t *b, size_t len, const uint8_t *in, size_t in_len, uint8_t *out, size_t out_len) {
    uint64_t refused = egl_circuit_check(b, len);
    if (refused) return refused;
    uint64_t inputs = at(b + 5), gates = at(b + 7), outputs = at(b + 9);
    if (in_len != inputs || out_len != outputs) return 2;
    uint8_t bit[1280];
    for (uint64_t i = 0; i < inputs; i++) bit[i] = in[i] != 0;
    for (uint64_t g = 0; g < gates; g++) {
        const uint8_t *p = b + 11 + 8 * g;
        int x = needs[p[0]] > 0 ? bit[at(p + 2)] : 0, y = needs[p[0]] > 1 ? bit[at(p + 4)] : 0, z = needs[p[0]] > 2 ? bit[at(p + 6)] : 0;
        int values[14] = { 0, 1, !x, x & y, x | y, !(x & y), !(x | y), x ^ y, !(x ^ y), !x && y, x && !y, !x || y, x || !y, x ? y : z };
        bit[inputs + g] = values[p[0]];
    }
    for (uint64_t o = 0; o < outputs; o++) out[o] = bit[at(b + 11 + 8 * gates + 2 * o)];
    return 0;
}

/* Only there to be linked: the group does not call these. */
uint64_t egl_circuit_counts(const uint8_t *b, size_t len, uint32_t *out, size_t out_len) { (void)b, (void)len, (void)out, (void)out_len; return UINT64_MAX; }
uint64_t egl_circuit_work(const uint8_t *b, size_t len) { (void)b, (void)len; return UINT64_MAX; }

/* ---- export ---- */

typedef struct { char *text; size_t len; unsigned next; } writer;

static unsigned one(writer *w, const char *name, unsigned a) {
    w->len += sprintf(w->text + w->len, "1 1 %u %u %s\n", a, w->next, name);
    return w->next++;
}

static unsigned two(writer *w, const char *name, unsigned a, unsigned b) {
    w->len += sprintf(w->text + w->len, "2 1 %u %u %u %s\n", a, b, w->next, name);
    return w->next++;
}

static unsigned gate(writer *w, int kind, unsigned a, unsigned b, unsigned c) {
    unsigned x, y;
    switch (kind) {
    case 0: case 1: return one(w, "EQ", kind);
    case 2: return one(w, "INV", a);
    case 3: return two(w, "AND", a, b);
    case 4: x = two(w, "XOR", a, b); y = two(w, "AND", a, b); return two(w, "XOR", x, y);
    case 5: return one(w, "INV", two(w, "AND", a, b));
    case 6: x = one(w, "INV", a); y = one(w, "INV", b); return two(w, "AND", x, y);
    case 7: return two(w, "XOR", a, b);
    case 8: x = two(w, "XOR", a, b); return fault("xnor-as-xor") ? x : one(w, "INV", x);
    case 9: return two(w, "AND", one(w, "INV", a), b);
    case 10: x = one(w, "INV", b); return two(w, "AND", a, x);
    case 11: x = one(w, "INV", b); return one(w, "INV", two(w, "AND", a, x));
    case 12: x = one(w, "INV", a); return one(w, "INV", two(w, "AND", x, b));
    default: x = two(w, "XOR", b, c); y = two(w, "AND", a, x); return two(w, "XOR", y, fault("mux-the-other") ? b : c);
    }
}

uint64_t egl_bristol_export(const uint8_t *b, size_t len, uint8_t *out, size_t out_len) {
    uint64_t refused = egl_circuit_check(b, len);
    if (refused) return fault("export-place-one-off") ? refused + (1ull << 32) : refused;
    unsigned inputs = at(b + 5), gates = at(b + 7), outputs = at(b + 9), wire[1280];
    writer w = { malloc(1 << 18), 0, inputs };
    for (unsigned i = 0; i < inputs; i++) wire[i] = i;
    for (unsigned g = 0; g < gates; g++) {
        const uint8_t *p = b + 11 + 8 * g;
        wire[inputs + g] = gate(&w, p[0], needs[p[0]] > 0 ? wire[at(p + 2)] : 0, needs[p[0]] > 1 ? wire[at(p + 4)] : 0, needs[p[0]] > 2 ? wire[at(p + 6)] : 0);
    }
    for (unsigned o = 0; o < outputs; o++) one(&w, "EQW", wire[at(b + 11 + 8 * gates + 2 * (fault("export-outputs-turned") ? outputs - 1 - o : o))]);
    char head[100];
    size_t head_len = sprintf(head, "%u %u\n1 %u\n1 %u\n%s", w.next - inputs, w.next, inputs, outputs, fault("no-empty-line") ? "" : "\n");
    size_t need = head_len + w.len;
    refused = answer(0, need - (fault("export-length-one-short") ? 1 : 0));
    if (out_len < need) refused = fault("export-tells-length") ? answer(2, need) : 2;
    else { memcpy(out, head, head_len); memcpy(out + head_len, w.text, w.len); if (fault("export-byte-behind") && out_len > need) out[need] = 0; }
    free(w.text);
    return refused;
}
