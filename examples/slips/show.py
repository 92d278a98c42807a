#!/usr/bin/env python3
"""The smallest input of each slip of docs/SLIPS.md, right beside wrong, both reckoned by model.py: `show.py NAME`, or `./slip show NAME`."""
import sys

sys.dont_write_bytecode = True
from model import (EIGHTH, Q, SET_128, Params, body_amount, bootstrapping_key, centred, complement, decrypted, digits, document01, eighths, encrypted,
                   extracted, gate, mux, negative, offset, phase, place, remainder, rotated, rotated_sums, size, step, switched, switching_key, table_vector, test_vector, word, words)

PAIRS = [(0, 0), (1, 0), (0, 1), (1, 1)]
SMALL = Params(n=2, nbit=3, bgbit=8, l=2, basebit=2, t=5)
Z = [1, 0, 1, 1, 0, 0, 1, 0]
SHOWN = {}


def slip(name):
    def keep(show):
        SHOWN[name] = show
        return show
    return keep


def beside(right, wrong, said=('', '')):
    wide = max(len(right), len(wrong))
    for label, text, why in (('right', right, said[0]), ('wrong', wrong, said[1])):
        print(('  %s  %-*s   %s' % (label, wide, text, why)).rstrip())


def table(right, wrong, head='ab'):
    """A bit for each pair: right and wrong are functions of two bits."""
    print('  %s  right  wrong' % head)
    for a, b in PAIRS:
        print('  %d%d    %d      %d' % (a, b, right(a, b), wrong(a, b)))


# ---- the slips that 01 names


@slip('negate-rotation')
def negate_rotation():
    print('N 4, [1, 2, 3, 4] times X: the 4 ends in the upper half')
    beside(words(rotated([1, 2, 3, 4], 1)), words(rotated([1, 2, 3, 4], 1, negative)), ('MAX - 4', '-4, one more'))


@slip('negate-extraction')
def negate_extraction():
    print('N 4, a = [1, 2, 3, 4], b[0] = 5, extracted at 0')
    a, b = [1, 2, 3, 4], [5, 0, 0, 0]
    beside(words(extracted(a, b, 0)), words(extracted(a, b, 0, negative)))


@slip('wrap-b')
def wrap_b():
    print("NBIT 10, the amount of b = 0xFFF00000, half a step below a whole turn")
    beside(str(body_amount(SET_128, 0xFFF00000)), str(body_amount(SET_128, 0xFFF00000, wraps=True)))
    same = rotated([1, 2, 3, 4], 0) == rotated([1, 2, 3, 4], 8)
    print('  turned by 0 and by 2N (N 4): %s, so no gate shows it' % ('the same words' if same else 'other words'))


@slip('kind8-by-xnor')
def kind8_by_xnor():
    print("kind 8 of a circuit on two bits: xor's sum, negated, and the sum called xnor")
    table(lambda a, b: eighths('xor', a, b) < 0, lambda a, b: eighths('xnor', a, b) > 0)


@slip('false-minus-eighth')
def false_minus_eighth():
    right, wrong = (1 - EIGHTH) % Q, -EIGHTH % Q
    print('the last word of the constant false (its masks are 0), the bit that any key decrypts, and its drift')
    said = ['decrypts to %d, drift %d' % (decrypted([], [x]), centred(x + EIGHTH)) for x in (right, wrong)]
    beside(word(right), word(wrong), said)


@slip('digit-zero-rows')
def digit_zero_rows():
    p, ksk = Params(n=1, nbit=1, bgbit=8, l=1, basebit=1, t=1), [[1, 2], [3, 4]]
    print('n 1, N 2, BASEBIT 1, T 1: the masks 0, 0 have no field but 0, b is 5; the rows (0, 0, 1) and (1, 0, 1) hold 1, 2 and 3, 4')
    beside(words(switched(p, ksk, [0, 0, 5])), words(switched(p, ksk, [0, 0, 5], for_zero=1)))
    print('nand, decrypted, with an honest key:')
    table(lambda a, b: decrypted([1, 1], nand([1, 1], a, b)), lambda a, b: decrypted([1, 1], nand([1, 1], a, b, for_zero=1)))


# ---- the fakes that 01 names


def keys(key):
    return switching_key(SMALL, Z), bootstrapping_key(SMALL, key)


def operands(key, a, b):
    return encrypted(key, [0x10000000, 0x40000000], a), encrypted(key, [0x30000000, 0x40000000], b)


def nand(key, a, b, steps=None, for_zero=None):
    return gate(SMALL, 'nand', *operands(key, a, b), *keys(key), steps, for_zero)


def gate_number(p, a, b, ksk, bsk, out):
    """The refusal of a gate by the lengths that it is lent, the parameters being in range: 2 or 0."""
    switching = (2**p.basebit - 1) * p.t * size(p) * (p.n + 1)
    return 0 if (a, b, ksk, bsk, out) == (p.n + 1, p.n + 1, switching, p.n * 2 * p.l * 2 * size(p), p.n + 1) else 2


@slip('gate-refuses-all')
def gate_refuses_all():
    lengths = (3, 3, 360, 128, 3)
    print('n 2, N 8, BGBIT 8, L 2, BASEBIT 2, T 5: the answer of a gate whose slices have 3, 3, 360, 128 and 3 words, as they should')
    beside(str(gate_number(SMALL, *lengths)), str(gate_number(SMALL, *lengths[:4], 0)), ('done', 'refused'))


@slip('gate-fixed')
def gate_fixed():
    print('nand, decrypted: the gate, and one that hands back 0, 0, 2^29 whatever it is lent (three bits of four are right)')
    table(lambda a, b: decrypted([1, 1], nand([1, 1], a, b)), lambda a, b: decrypted([1, 1], [0, 0, EIGHTH]))


@slip('gate-unwritten')
def gate_unwritten():
    print('nand of true and true; the output slice held 1, 2, 3. Both answer 0, done')
    beside(words(nand([1, 1], 1, 1)), words([1, 2, 3]))


@slip('run-refuses-all')
def run_refuses_all():
    outputs = 1
    print("01's circuit, one nand, with every slice as long as it should be, the outputs' 3 words: the answer of the run, number and place")
    beside(*('%d 0' % (0 if length == outputs * (SMALL.n + 1) else 2) for length in (3, 0)), ('done', 'refused: outputs of no words are never right'))


@slip('run-fixed')
def run_fixed():
    key = [1, 1]
    print('a circuit of two nands, the second of the first and itself, which makes an and: its output, decrypted; the fake makes every gate 0, 0, 2^29')

    def both(a, b):
        first = nand(key, a, b)
        return decrypted(key, gate(SMALL, 'nand', first, first, *keys(key)))
    table(both, lambda a, b: decrypted(key, [0, 0, EIGHTH]))


@slip('run-unwritten')
def run_unwritten():
    out = nand([1, 1], 1, 1)
    print("01's circuit on true and true: the last wire, which both runs write, and the outputs' slice, which held 1, 2, 3")
    beside('wire %s   outputs %s' % (words(out), words(out)), 'wire %s   outputs %s' % (words(out), words([1, 2, 3])))


@slip('all-in-step-one')
def all_in_step_one():
    p = Params(n=2, nbit=1, bgbit=8, l=1, basebit=1, t=1)
    print('n 2, N 2, key bits 1, 1, both masks a quarter of a turn: the accumulator, a then b, after step one and after step two')
    key, start = bootstrapping_key(p, [1, 1]), test_vector(p)
    one = step(p, key[0], 0x40000000, start)
    two = step(p, key[1], 0x40000000, one)
    beside(*('%s   %s' % (words(x[0] + x[1]), words(two[0] + two[1])) for x in (one, two)))


@slip('made-up-work')
def made_up_work():
    key, before = [1, 1], len(rotated_sums)
    (a, b), gates = operands(key, 1, 0), 1
    out = mux(SMALL, a, b, a, *keys(key))
    sums = rotated_sums[before:]
    print('a circuit of one mux, here of true, false and true, which gives %d: the sums that it rotates, and the first line that the program prints' % decrypted(key, out))
    print('  ' + '   '.join(words(src) for src in sums))
    beside(*('EGL 1 inputs 3 gates 1 outputs 1 work %d' % work for work in (len(sums), gates)))


# ---- xnor


@slip('xnor-by-name')
def xnor_by_name():
    print('the gate `xnor` on two bits: what its sum a - 2b - 2 stands for, and what its name says')
    table(lambda a, b: eighths('xnor', a, b) > 0, lambda a, b: a == b)
    print('  in eighths of a turn: %s (positive is true)' % ', '.join('%d%d %+d' % (a, b, eighths('xnor', a, b)) for a, b in PAIRS))


@slip('kind8-truth-table')
def kind8_truth_table():
    print('kind 8 on plain bits, from its truth table: bit a + 2b of 153, and of 102')
    table(lambda a, b: 153 >> (a + 2 * b) & 1, lambda a, b: 102 >> (a + 2 * b) & 1)


# ---- further ones


@slip('one-key')
def one_key():
    print('nand, decrypted: all n steps, and the first step alone')
    for key in ([1, 0], [1, 1]):
        print('  level-0 key %d, %d' % tuple(key))
        table(lambda a, b: decrypted(key, nand(key, a, b)), lambda a, b: decrypted(key, nand(key, a, b, steps=1)))


@slip('row-one-off')
def row_one_off():
    p = Params(n=1, nbit=1, bgbit=8, l=1, basebit=2, t=1)

    def off(p, i, j, k):
        return place(p, i, j, k) + 1 // k
    print('n 1, N 2, BASEBIT 2, T 1: the places of rows (0, 0, 1) to (0, 0, 3) and (1, 0, 1) to (1, 0, 3)')
    beside(*(' '.join(str(at(p, i, 0, k)) for i in range(2) for k in range(1, 4)) for at in (place, off)))
    z, src = [1, 0], [0x40000000, 0, 0x60000000]
    print('level-1 key 1, 0: true with the masks 0x40000000, 0, whose fields are 1 and 0, is switched')
    made = [switched(p, switching_key(p, z), src, place=at) for at in (place, off)]
    beside(*(words(c) for c in made), ['decrypts to %d' % decrypted([1], c) for c in made])


@slip('offset-power')
def offset_power():
    print('BGBIT 6, L 3: the offset, and the digits of 0 that it gives')
    beside(*('%s   digits %s' % (word(x), digits(SET_128, 0, x)) for x in (offset(SET_128), offset(SET_128, 32))))


@slip('offset-divided-first')
def offset_divided_first():
    p = SET_128
    power, fields, field = 2**(31 + p.bgbit - p.l * p.bgbit), 2**(p.l * p.bgbit) - 1, 2**p.bgbit - 1
    print('BGBIT %d, L %d, remainders by %d: of %d it is %d, of %d it is %d' % (p.bgbit, p.l, field, fields, fields % field, power, power % field))
    print('the offset, and the digits of 0 that it gives')
    beside(*('%s   digits %s' % (word(x), digits(p, 0, x)) for x in (offset(p), power // field * fields)))


@slip('ones-from-z0')
def ones_from_z0():
    z, a, b = [1, 0], [0, 0], [0, 0]
    print('N 2, z = 1, 0, the pair (0, 0) extracted at 0: its phase is %d; what extraction adds to it by the count of ones' % phase(z, extracted(a, b, 0)))
    beside(str(sum(z[1:])), str(sum(z)), ('ones of z_1', 'ones of z_0, z_1'))


@slip('inside-with-equal')
def inside_with_equal():
    c = [0, 0, EIGHTH - 2**28]
    bit = decrypted([1, 1], gate(SMALL, 'nand', c, c, *keys([1, 1])))
    print('nand of true and true, each with drift -2^28 and no mask: the drift brought in is 2^29, and the output decrypts to %d' % bit)
    beside('inside: %s' % (abs(2 * 2**28) < EIGHTH), 'inside: %s' % (abs(2 * 2**28) <= EIGHTH))


@slip('remainder-after-wrap')
def remainder_after_wrap():
    print('NBIT 3, the remainder of the word 0xF8000000')
    beside(*('%d' % remainder(SMALL, 0xF8000000, wraps) for wraps in (False, True)))
    print('  modulo 2^32 both are 0x%X, so that no drift shows it' % (remainder(SMALL, 0xF8000000) % Q))


def front(vector, place):
    """What a rotation brings to the front from a place below 2N, with true negation."""
    return vector[place] if place < len(vector) else negative(vector[place - len(vector)])


def table_vectors(right, wrong):
    print('N 8, the table 3, 5: its vector, and what messages 0 and 1 bring to the front one step low, exact, and one step high')
    beside(*('%s   %s' % (' '.join(str(centred(x)) for x in v), ', '.join(' '.join(str(centred(front(v, place % 16))) for place in (at - 1, at, at + 1)) for at in (0, 4))) for v in (right, wrong)))


@slip('table-complements')
def table_complements():
    table_vectors(table_vector(8, [3, 5]), table_vector(8, [3, 5], turned=complement))


@slip('half-step')
def half_step():
    table_vectors(table_vector(8, [3, 5]), table_vector(8, [3, 5], half=0))


if __name__ == '__main__':
    if len(sys.argv) != 2 or sys.argv[1] not in SHOWN:
        sys.exit('show.py NAME, one of: ' + ' '.join(SHOWN))
    if not document01():
        sys.exit("model.py does not give document 01's examples")
    SHOWN[sys.argv[1]]()
