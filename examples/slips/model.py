"""Document 01 in plain Python, for the smallest inputs of docs/SLIPS.md: words, rotations, rounding, digits, the external product, switching, gates.

It proves nothing: the proved code is in crates/. It is slow, short, and written from 01's sentences, so that a reader can try a slip by hand. Where a slip
changes a rule, the rule is an argument, and its default is 01's. `document01` holds it against 01's examples.
"""
from collections import namedtuple

Q = 2**32  # a word counts 2^-32 of a turn
EIGHTH = 2**29
Params = namedtuple('Params', 'n nbit bgbit l basebit t')
SET_128 = Params(700, 10, 6, 3, 2, 9)


def size(p):
    return 2**p.nbit


def complement(x):
    return Q - 1 - x  # MAX - a


def negative(x):
    return -x % Q


def centred(x):
    return (x + 2**31) % Q - 2**31


def word(x):
    return '0x%08X' % x


def words(xs):
    return ' '.join(str(x) if x < 10 else word(x) for x in xs)


# ---- rotation, extraction, rounding


def rotated(a, k, turned=complement):
    """X^k · a: places move by k modulo 2N; a coefficient that ends in the upper half is complemented."""
    n = len(a)
    sources = [(i - k) % (2 * n) for i in range(n)]
    return [a[s] if s < n else turned(a[s - n]) for s in sources]


def extracted(a, b, k, turned=complement):
    return [a[k - i] if i <= k else turned(a[len(a) + k - i]) for i in range(len(a))] + [b[k]]


def mask_amount(p, x):
    h = 2**(30 - p.nbit)
    return (x + h) % Q // (2 * h)


def body_amount(p, b, wraps=False):
    h = 2**(30 - p.nbit)
    total = (b + h) % Q if wraps else b + h
    return 2 * size(p) - total // (2 * h)


def remainder(p, x, wraps=False):
    """Rounded steps (before any wrap) times 2h, less the word."""
    h = 2**(30 - p.nbit)
    total = (x + h) % Q if wraps else x + h
    return total // (2 * h) * (2 * h) - x


# ---- digits and the external product


def offset(p, first=31):
    return sum(2**(first - i * p.bgbit) for i in range(p.l)) % Q


def digits(p, x, added=None):
    """The L top fields of BGBIT bits once the offset is added, less 2^(BGBIT-1), as signed numbers."""
    y = (x + (offset(p) if added is None else added)) % Q
    return [y // 2**(32 - (i + 1) * p.bgbit) % 2**p.bgbit - 2**(p.bgbit - 1) for i in range(p.l)]


def product(a, b):
    """Modulo X^N + 1 and 2^32."""
    n = len(a)
    return [sum(a[i] * b[k - i] if i <= k else -a[i] * b[n + k - i] for i in range(n)) % Q for k in range(n)]


def plus(a, b):
    return [(x + y) % Q for x, y in zip(a, b)]


def minus(a, b):
    return [(x - y) % Q for x, y in zip(a, b)]


def external(p, rows, pair):
    """The sum of digit polynomial times row; a row is a pair."""
    polynomials = [[digits(p, x)[i] for x in half] for half in pair for i in range(p.l)]
    out = [[0] * size(p), [0] * size(p)]
    for digit, row in zip(polynomials, rows):
        out = [plus(out[0], product(digit, row[0])), plus(out[1], product(digit, row[1]))]
    return out


# ---- keys without mask and noise, as in crates/blind_rotation/proofs/Examples.antt: the smallest honest ones


def bootstrapping_key(p, key):
    """Per key bit m 2L rows: m·g_i added to a[0] of row i below L, and to b[0] of row L+i."""
    zero = [0] * (size(p) - 1)
    gadget = [2**(32 - (i + 1) * p.bgbit) for i in range(p.l)]
    return [[([m * g] + zero, [0] + zero) for g in gadget] + [([0] + zero, [m * g] + zero) for g in gadget] for m in key]


def place(p, i, j, k):
    """Of row (i, j, k) among the rows of the switching key, k from 1 (02, 2026-06)."""
    return (2**p.basebit - 1) * (p.t * i + j) + k - 1


def switching_key(p, z):
    """Its rows in order: row (i, j, k), k from 1, carries k·z_i·2^(32-(j+1)·BASEBIT)."""
    return [[0] * p.n + [k * z[i] * 2**(32 - (j + 1) * p.basebit) % Q] for i in range(size(p)) for j in range(p.t) for k in range(1, 2**p.basebit)]


# ---- blind rotation, switching, gates


def step(p, rows, mask, pair):
    """cmux: in1 + product(in2 - in1), in2 being in1 turned by the mask's amount."""
    turned = [rotated(half, mask_amount(p, mask)) for half in pair]
    moved = external(p, rows, [minus(turned[0], pair[0]), minus(turned[1], pair[1])])
    return [plus(pair[0], moved[0]), plus(pair[1], moved[1])]


def test_vector(p):
    return [[0] * size(p), [EIGHTH] * size(p)]


rotated_sums = []  # what was rotated so far, in order


def table_vector(n, f, half=None, turned=negative):
    """02, 2026-07: coefficient i of a table's vector takes f at (i·M + N/2) div N, and f(0) negated where that is M."""
    m, half = len(f), n // 2 if half is None else half
    return [turned(f[0]) if (i * m + half) // n == m else f[(i * m + half) // n] for i in range(n)]


def blind_rotated(p, bsk, src, steps=None):
    rotated_sums.append(src)
    pair = [rotated(half, body_amount(p, src[p.n])) for half in test_vector(p)]
    for i in range(p.n if steps is None else steps):
        pair = step(p, bsk[i], src[i], pair)
    return pair


def switched(p, ksk, src, for_zero=None, place=place):
    """b copied; each mask + 2^(31-BASEBIT·T), wrapping; top T fields; a nonzero field's row is subtracted. A field of 0 has none, or the one for this k."""
    out = [0] * p.n + [src[size(p)]]
    for i in range(size(p)):
        x = (src[i] + 2**(31 - p.basebit * p.t)) % Q
        for j in range(p.t):
            k = x // 2**(32 - (j + 1) * p.basebit) % 2**p.basebit
            k = for_zero if k == 0 else k
            if k is not None:
                out = minus(out, ksk[place(p, i, j, k)])
    return out


# multiples of a and b, and eighths (01, gates)
SUMS = {'nand': (-1, -1, 1), 'and': (1, 1, -1), 'and_ny': (-1, 1, -1), 'xor': (1, 2, 2), 'xnor': (1, -2, -2)}


def eighths(kind, a, b):
    """The sum of two bits without drift, in eighths of a turn, from -4 to 3."""
    x, y, c = SUMS[kind]
    return (x * (1 if a else -1) + y * (1 if b else -1) + c + 4) % 8 - 4


def sample(p, kind, a, b, bsk, steps=None):
    """The sum, rotated and extracted."""
    x, y, c = SUMS[kind]
    src = [(x * u + y * v) % Q for u, v in zip(a, b)]
    src[p.n] = (src[p.n] + c * EIGHTH) % Q
    return extracted(*blind_rotated(p, bsk, src, steps), 0)


def gate(p, kind, a, b, ksk, bsk, steps=None, for_zero=None):
    return switched(p, ksk, sample(p, kind, a, b, bsk, steps), for_zero)


def mux(p, a, b, c, ksk, bsk):
    """and(a, b) and and_ny(a, c) extracted, added at level 1 with +1, one key switch."""
    both = plus(sample(p, 'and', a, b, bsk), sample(p, 'and_ny', a, c, bsk))
    both[size(p)] = (both[size(p)] + EIGHTH) % Q
    return switched(p, ksk, both)


# ---- encryption and decryption


def encrypted(key, masks, bit):
    return masks + [(sum(m * k for m, k in zip(masks, key)) + (EIGHTH if bit else -EIGHTH)) % Q]


def phase(key, c):
    return (c[-1] - sum(m * k for m, k in zip(c, key))) % Q


def decrypted(key, c):
    return int(phase(key, c) < 2**31)


def document01():
    """Does the model give 01's proved examples, which crates/egl_c/proofs/Examples.antt computes from the definitions?"""
    four = [1, 2, 3, 4]
    return (offset(SET_128) == 0x82080000
            and [digits(SET_128, x) for x in (0, 0xFFFFFFFF, 0x80000000, 0x7FFFFFFF)] == [[0, 0, 0], [0, 0, -1], [-32, 0, 0], [-32, 0, -1]]
            and rotated(four, 1) == [0xFFFFFFFB, 1, 2, 3] and rotated(four, 7) == [2, 3, 4, 0xFFFFFFFE]
            and rotated(four, 4) == [complement(x) for x in four] and rotated(four, 8) == four
            and extracted(four, [5, 6, 7, 8], 0) == [1, 0xFFFFFFFB, 0xFFFFFFFC, 0xFFFFFFFD, 5]
            and [body_amount(SET_128, b) for b in (0, 0xFFF00000, 0xFFEFFFFF)] == [2048, 0, 1] and mask_amount(SET_128, 0xFFF00000) == 0)
