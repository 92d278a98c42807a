/* egl.h: the proved evaluator of encrypted gates, as C sees it. Link libegl_c.a (x86-64 Linux) and the C library's mathematics (-lm).
 *
 * Calls. Every function takes any numbers and any buffers. It does its work or gives a refusal, and a refused call has written to none of the
 * memory lent to it. A buffer is a pointer and the number of its elements (not bytes). The pointer must be valid for that many elements,
 * aligned for one element, and, where it is written to, must not overlap another buffer of the call. With length 0 the pointer is not followed and may
 * be NULL. No function allocates, keeps a pointer, or needs more than 64 KB of stack (the deepest, a lookup with its drifts, takes 51,128 bytes).
 *
 * Threads. Nothing is kept between calls and nothing is shared but what you lend: any functions may run in any threads at once, as long as no buffer that
 * one call writes to is lent to another at the same time. Keys are never written to, so one key serves all threads.
 *
 * Answers. The answer is one number of 64 bits: the refusal in its low half, 0 when the work is done, and the place in its high half (only refusals
 * 6 to 12, those of circuits and texts, have one; a column's kind, which gets 9 too, has place 0). A function that gives a number beside its answer, as a
 * decryption, puts it into the high half instead (EGL_VALUE); it is 0 beside a refusal, but that those of egl_circuit_work, egl_bristol_import,
 * egl_bristol_export, egl_drift_run and egl_drift_gate have their place there. Checks go in the order of the numbers, but that a circuit under 11 bytes gets 8
 * before 6 and 7, and the lengths that depend on a circuit or a text (2) come after it:
 *   1  a parameter is outside its range
 *   2  a buffer has not exactly its stated length; for egl_bristol_import and egl_bristol_export: out is shorter than the result
 *   3  rotation amount above 2N, extraction index N or more, or a key row's index outside its range
 *   4  a secret key word is neither 0 nor 1
 *   5  message modulus not 2, 4, 8, 16, 32 or 64, or, of a table, twice the modulus does not divide N
 *   6  circuit: wrong mark      7  circuit: version not 1      8  circuit: length or count
 *   9  circuit: a gate; column: a kind that is not 3 to 12
 *  10  circuit: an output
 *  11  text: not in the Bristol Fashion form, anywhere in it      12  text: in the form, but with a MAND or past a limit of circuits
 *  13  drift report: of more than 65,535 wires
 *
 * Parameters: n 1..1,100; nbit 1..10, N = 2^nbit; bgbit 1..24, l at least 1, l * bgbit at most 32; basebit 1..6, t at least 1,
 * basebit * t at most 30. A word (uint32_t) counts 2^-32 of a turn.
 */
#ifndef EGL_H
#define EGL_H

#include <stddef.h>
#include <stdint.h>

#ifdef __cplusplus
extern "C" {
#endif

/* ---- version ---- */

/* The interface that this header describes. One more with each release in which a function is added, taken away or changed: where egl_version() gives another number, header and
 * archive do not belong together. */
#define EGL_VERSION 7

/* The interface that the archive has. */
uint32_t egl_version(void);

/* ---- answers ---- */

typedef uint64_t egl_answer;

#define EGL_NUMBER(answer) ((uint32_t)(answer))
#define EGL_PLACE(answer) ((uint32_t)((answer) >> 32))
#define EGL_VALUE(answer) ((uint32_t)((answer) >> 32))

/* ---- the six numbers, published sets, lengths ---- */

/* The six numbers, in the order in which every function takes them. */
#define EGL_PARAMS uint32_t n, uint32_t nbit, uint32_t bgbit, uint32_t l, uint32_t basebit, uint32_t t

/* The published sets that are in range, as the first six arguments of any call: egl_params_check(EGL_SET_128). With each go the standard deviations of its
 * noise as fractions of a turn: _NOISE_LV0 for ciphertexts at level 0 and the switching key, _NOISE_LV1 for the bootstrapping key. Drawing noise is the
 * caller's: lent words of noise are added as they are. At level 1 of UINT2 to UINT6 the deviation is far below one word, so that the drawn noise is nearly
 * always 0 and the key hides nothing. */
#define EGL_SET_80 550, 10, 6, 3, 2, 7
#define EGL_SET_80_NOISE_LV0 5.0e-5
#define EGL_SET_80_NOISE_LV1 3.73e-8
#define EGL_SET_110 630, 10, 6, 3, 2, 8
#define EGL_SET_110_NOISE_LV0 3.0517578125e-5
#define EGL_SET_110_NOISE_LV1 2.9802322387695313e-8
#define EGL_SET_128 700, 10, 6, 3, 2, 9
#define EGL_SET_128_NOISE_LV0 2.0e-5
#define EGL_SET_128_NOISE_LV1 2.0e-8
#define EGL_SET_UINT1 700, 10, 10, 2, 2, 8
#define EGL_SET_UINT1_NOISE_LV0 2.0e-5
#define EGL_SET_UINT1_NOISE_LV1 2.0e-8
#define EGL_SET_UINT2 687, 10, 18, 1, 4, 3
#define EGL_SET_UINT2_NOISE_LV0 2.120846893069972e-5
#define EGL_SET_UINT2_NOISE_LV1 2.3184122752704995e-12
#define EGL_SET_UINT3 820, 10, 23, 1, 6, 2
#define EGL_SET_UINT3_NOISE_LV0 2.5167616095979554e-6
#define EGL_SET_UINT3_NOISE_LV1 2.220446049250313e-16
#define EGL_SET_UINT4 820, 10, 22, 1, 5, 3
#define EGL_SET_UINT4_NOISE_LV0 2.5167616095979554e-6
#define EGL_SET_UINT4_NOISE_LV1 2.220446049250313e-16
#define EGL_SET_UINT5 1071, 10, 22, 1, 6, 3
#define EGL_SET_UINT5_NOISE_LV0 7.08822676541043e-8
#define EGL_SET_UINT5_NOISE_LV1 2.2204460492503131e-17
#define EGL_SET_UINT6 1071, 10, 22, 1, 6, 3
#define EGL_SET_UINT6_NOISE_LV0 7.08822676541043e-8
#define EGL_SET_UINT6_NOISE_LV1 2.2204460492503131e-17

/* Lengths in words for six numbers in range, which may be one of the sets: EGL_SWITCHING_WORDS(EGL_SET_128). A ciphertext at level 0 or at level 1; the
 * switching key, the masks and the noise that its generation is lent, and the switching key as it was up to version 5 (see egl_key_drop_idle_rows); the
 * bootstrapping key, and its masks, which are as many as its noise. */
#define EGL_CIPHERTEXT_WORDS(...) EGL_CIPHERTEXT_WORDS_(__VA_ARGS__)
#define EGL_CIPHERTEXT_WORDS_(n, nbit, bgbit, l, basebit, t) ((size_t)(n) + 1)
#define EGL_CIPHERTEXT_LV1_WORDS(...) EGL_CIPHERTEXT_LV1_WORDS_(__VA_ARGS__)
#define EGL_CIPHERTEXT_LV1_WORDS_(n, nbit, bgbit, l, basebit, t) (((size_t)1 << (nbit)) + 1)
#define EGL_SWITCHING_WORDS(...) EGL_SWITCHING_WORDS_(__VA_ARGS__)
#define EGL_SWITCHING_WORDS_(n, nbit, bgbit, l, basebit, t) (((size_t)(t) << (nbit)) * (((size_t)1 << (basebit)) - 1) * ((size_t)(n) + 1))
#define EGL_SWITCHING_MASKS(...) EGL_SWITCHING_MASKS_(__VA_ARGS__)
#define EGL_SWITCHING_MASKS_(n, nbit, bgbit, l, basebit, t) (((size_t)(t) << (nbit)) * (((size_t)1 << (basebit)) - 1) * (size_t)(n))
#define EGL_SWITCHING_NOISE(...) EGL_SWITCHING_NOISE_(__VA_ARGS__)
#define EGL_SWITCHING_NOISE_(n, nbit, bgbit, l, basebit, t) (((size_t)(t) << (nbit)) * (((size_t)1 << (basebit)) - 1))
#define EGL_FORMER_SWITCHING_WORDS(...) EGL_FORMER_SWITCHING_WORDS_(__VA_ARGS__)
#define EGL_FORMER_SWITCHING_WORDS_(n, nbit, bgbit, l, basebit, t) (((size_t)(t) << ((nbit) + (basebit))) * ((size_t)(n) + 1))
#define EGL_BOOTSTRAPPING_WORDS(...) EGL_BOOTSTRAPPING_WORDS_(__VA_ARGS__)
#define EGL_BOOTSTRAPPING_WORDS_(n, nbit, bgbit, l, basebit, t) ((size_t)(n) * 4 * (size_t)(l) << (nbit))
#define EGL_BOOTSTRAPPING_MASKS(...) EGL_BOOTSTRAPPING_MASKS_(__VA_ARGS__)
#define EGL_BOOTSTRAPPING_MASKS_(n, nbit, bgbit, l, basebit, t) ((size_t)(n) * 2 * (size_t)(l) << (nbit))

/* Refused with 1 where a number is outside its range. */
egl_answer egl_params_check(EGL_PARAMS);

/* ---- doubles and words ---- */

/* The fraction of d times 2^32, cut toward zero, modulo 2^32. A NaN and the infinities give 0. */
uint32_t egl_utils_f64_to_torus(double d);

/* t / 2^32, exactly. */
double egl_utils_torus_to_f64(uint32_t t);

/* The word of each double. Refused with 2 where the lengths differ. */
egl_answer egl_utils_f64_to_torus_vec(const double *d, size_t d_len, uint32_t *out, size_t out_len);

/* ---- the exact product modulo X^N + 1 and 2^32 ---- */

/* out = a * b. Each buffer has N words. Refusals 1, 2. */
egl_answer egl_product_poly_mul(EGL_PARAMS, const uint32_t *a, size_t a_len, const uint32_t *b, size_t b_len, uint32_t *out, size_t out_len);

/* out = out + a * b. Each buffer has N words. Refusals 1, 2. */
egl_answer egl_product_poly_mul_add(EGL_PARAMS, const uint32_t *a, size_t a_len, const uint32_t *b, size_t b_len, uint32_t *out, size_t out_len);

/* ---- ciphertexts: n + 1 words at level 0 (_lv0), N + 1 words at level 1 (_lv1); the last word is b ---- */

/* a + b, word by word modulo 2^32. Every buffer is a ciphertext. Refusals 1, 2. */
egl_answer egl_tlwe_add_lv0(EGL_PARAMS, const uint32_t *a, size_t a_len, const uint32_t *b, size_t b_len, uint32_t *out, size_t out_len);
egl_answer egl_tlwe_add_lv1(EGL_PARAMS, const uint32_t *a, size_t a_len, const uint32_t *b, size_t b_len, uint32_t *out, size_t out_len);

/* a - b. Every buffer is a ciphertext. Refusals 1, 2. */
egl_answer egl_tlwe_sub_lv0(EGL_PARAMS, const uint32_t *a, size_t a_len, const uint32_t *b, size_t b_len, uint32_t *out, size_t out_len);
egl_answer egl_tlwe_sub_lv1(EGL_PARAMS, const uint32_t *a, size_t a_len, const uint32_t *b, size_t b_len, uint32_t *out, size_t out_len);

/* -a: each word negated. Every buffer is a ciphertext. Refusals 1, 2. */
egl_answer egl_tlwe_neg_lv0(EGL_PARAMS, const uint32_t *a, size_t a_len, uint32_t *out, size_t out_len);
egl_answer egl_tlwe_neg_lv1(EGL_PARAMS, const uint32_t *a, size_t a_len, uint32_t *out, size_t out_len);

/* a + multiplier * b. Every buffer is a ciphertext. Refusals 1, 2. */
egl_answer egl_tlwe_add_mul_lv0(EGL_PARAMS, const uint32_t *a, size_t a_len, const uint32_t *b, size_t b_len, uint32_t multiplier, uint32_t *out, size_t out_len);
egl_answer egl_tlwe_add_mul_lv1(EGL_PARAMS, const uint32_t *a, size_t a_len, const uint32_t *b, size_t b_len, uint32_t multiplier, uint32_t *out, size_t out_len);

/* a - multiplier * b. Every buffer is a ciphertext. Refusals 1, 2. */
egl_answer egl_tlwe_sub_mul_lv0(EGL_PARAMS, const uint32_t *a, size_t a_len, const uint32_t *b, size_t b_len, uint32_t multiplier, uint32_t *out, size_t out_len);
egl_answer egl_tlwe_sub_mul_lv1(EGL_PARAMS, const uint32_t *a, size_t a_len, const uint32_t *b, size_t b_len, uint32_t multiplier, uint32_t *out, size_t out_len);

/* A bit, 0 or not 0, as -1/8 or 1/8 of a turn, encrypted: out = the masks, then b = masks * key + word + noise.
 * masks and key have n (or N) words, out one more. Refusals 1, 2, 4. */
egl_answer egl_tlwe_encrypt_bit_lv0(EGL_PARAMS, uint32_t bit, const uint32_t *masks, size_t masks_len, uint32_t noise, const uint32_t *key, size_t key_len, uint32_t *out, size_t out_len);
egl_answer egl_tlwe_encrypt_bit_lv1(EGL_PARAMS, uint32_t bit, const uint32_t *masks, size_t masks_len, uint32_t noise, const uint32_t *key, size_t key_len, uint32_t *out, size_t out_len);

/* A fraction of a turn, encrypted: out = the masks, then b = masks * key + word + noise.
 * masks and key have n (or N) words, out one more. Refusals 1, 2, 4. */
egl_answer egl_tlwe_encrypt_turn_lv0(EGL_PARAMS, double turn, const uint32_t *masks, size_t masks_len, uint32_t noise, const uint32_t *key, size_t key_len, uint32_t *out, size_t out_len);
egl_answer egl_tlwe_encrypt_turn_lv1(EGL_PARAMS, double turn, const uint32_t *masks, size_t masks_len, uint32_t noise, const uint32_t *key, size_t key_len, uint32_t *out, size_t out_len);

/* A message, value mod modulus, as a multiple of 1/(2 modulus) of a turn, encrypted: out = the masks, then b = masks * key + word + noise.
 * masks and key have n (or N) words, out one more. Refusals 1, 2, 4, 5. */
egl_answer egl_tlwe_encrypt_message_lv0(EGL_PARAMS, uint64_t value, uint64_t modulus, const uint32_t *masks, size_t masks_len, uint32_t noise, const uint32_t *key, size_t key_len, uint32_t *out, size_t out_len);
egl_answer egl_tlwe_encrypt_message_lv1(EGL_PARAMS, uint64_t value, uint64_t modulus, const uint32_t *masks, size_t masks_len, uint32_t noise, const uint32_t *key, size_t key_len, uint32_t *out, size_t out_len);

/* The bit of the ciphertext c, 0 or 1, as the value. Refusals 1, 2, 4. */
egl_answer egl_tlwe_decrypt_bit_lv0(EGL_PARAMS, const uint32_t *c, size_t c_len, const uint32_t *key, size_t key_len);
egl_answer egl_tlwe_decrypt_bit_lv1(EGL_PARAMS, const uint32_t *c, size_t c_len, const uint32_t *key, size_t key_len);

/* The message of the ciphertext c, below the modulus, as the value. Refusals 1, 2, 4, 5. */
egl_answer egl_tlwe_decrypt_message_lv0(EGL_PARAMS, uint64_t modulus, const uint32_t *c, size_t c_len, const uint32_t *key, size_t key_len);
egl_answer egl_tlwe_decrypt_message_lv1(EGL_PARAMS, uint64_t modulus, const uint32_t *c, size_t c_len, const uint32_t *key, size_t key_len);

/* ---- pairs of polynomials: a and b, N words each ---- */

/* N doubles, each a fraction of a turn, encrypted: a = masks, b = noise + words + a * key. Every buffer has N elements. Refusals 1, 2, 4. */
egl_answer egl_trlwe_encrypt_f64(EGL_PARAMS, const double *plain, size_t plain_len, const uint32_t *masks, size_t masks_len, const uint32_t *noise, size_t noise_len, const uint32_t *key, size_t key_len, uint32_t *a, size_t a_len, uint32_t *b, size_t b_len);

/* The same of N bits, bytes 0 (false) or not 0 (true). Refusals 1, 2, 4. */
egl_answer egl_trlwe_encrypt_bool(EGL_PARAMS, const uint8_t *plain, size_t plain_len, const uint32_t *masks, size_t masks_len, const uint32_t *noise, size_t noise_len, const uint32_t *key, size_t key_len, uint32_t *a, size_t a_len, uint32_t *b, size_t b_len);

/* The N bits of a pair, bytes 0 or 1. Refusals 1, 2, 4. */
egl_answer egl_trlwe_decrypt_bool(EGL_PARAMS, const uint32_t *a, size_t a_len, const uint32_t *b, size_t b_len, const uint32_t *key, size_t key_len, uint8_t *out, size_t out_len);

/* The level-1 ciphertext (N + 1 words) of coefficient k, k below N; past k the masks are complemented. Refusals 1, 2, 3. */
egl_answer egl_trlwe_sample_extract_index(EGL_PARAMS, const uint32_t *a, size_t a_len, const uint32_t *b, size_t b_len, size_t k, uint32_t *out, size_t out_len);

/* ---- rotation and rounding ---- */

/* X^k * a, k from 0 to 2N; a coefficient that ends in the upper half is complemented (not negated). a and out have N words. Refusals 1, 2, 3. */
egl_answer egl_trgsw_poly_mul_with_x_k(EGL_PARAMS, const uint32_t *a, size_t a_len, uint32_t k, uint32_t *out, size_t out_len);

/* The rotation amount of a mask word, below 2N, as the value; the rounding wraps. Refusal 1. */
egl_answer egl_trgsw_mask_amount(EGL_PARAMS, uint32_t x);

/* The rotation amount of the last word b, from 0 to 2N, as the value; the rounding does not wrap. Refusal 1. */
egl_answer egl_trgsw_body_amount(EGL_PARAMS, uint32_t b);

/* ---- key material ---- */

/* The decomposition's offset, as the value. Refusal 1. */
egl_answer egl_key_decomposition_offset(EGL_PARAMS);

/* The test vector: a zero, b an eighth of a turn in each of its N words. Refusals 1, 2. */
egl_answer egl_key_gen_testvec(EGL_PARAMS, uint32_t *a, size_t a_len, uint32_t *b, size_t b_len);

/* The switching key, (2^basebit - 1) * t * N rows of n + 1 words: row (i, j, k), k from 1 to 2^basebit - 1, at (2^basebit - 1) * (t * i + j) + k - 1, encrypts
 * k * key_lv1[i] * 2^(32 - (j + 1) * basebit). Each draws, in row order, n masks and one noise word: masks has (2^basebit - 1) * t * N * n words, noise
 * (2^basebit - 1) * t * N. key_lv0 has n words, key_lv1 N. Refusals 1, 2, 4. */
egl_answer egl_key_gen_key_switching_key(EGL_PARAMS, const uint32_t *key_lv0, size_t key_lv0_len, const uint32_t *key_lv1, size_t key_lv1_len, const uint32_t *masks, size_t masks_len, const uint32_t *noise, size_t noise_len, uint32_t *out, size_t out_len);

/* For keys that were made up to version 5 of this interface. They had idle rows, those with k = 0, which nothing read: row (i, j, k), k from 0, stood at
 * 2^basebit * (t * i + j) + k. out becomes the key as it is now: the other rows word for word; the idle ones are dropped, whatever they hold. former has
 * 2^basebit * t * N * (n + 1) words (EGL_FORMER_SWITCHING_WORDS), out (2^basebit - 1) * t * N * (n + 1). Bootstrapping keys are as they were. Refusals 1, 2. */
egl_answer egl_key_drop_idle_rows(EGL_PARAMS, const uint32_t *former, size_t former_len, uint32_t *out, size_t out_len);

/* What a lookup of row (i, j, k) in a switching key of so many words is answered: i is below N, j below t, k from 1 to 2^basebit - 1. Refusals 1, 2, 3. */
egl_answer egl_key_switching_row_answer(EGL_PARAMS, size_t words, size_t i, size_t j, size_t k);

/* The place of that row among the rows, as the value: its first word stands at (n + 1) times this. Refusals 1, 3. */
egl_answer egl_key_row_index(EGL_PARAMS, size_t i, size_t j, size_t k);

/* One bit's part of the bootstrapping key: 2l rows of 2N words, a then b, encryptions of zero that draw N masks and N noise words each, in row order. Then
 * m * 2^(32 - (i + 1) * bgbit), modulo 2^32, is added to the first word of a in row i and to the first word of b in row l + i, i from 0 to l - 1. m is any
 * word (a key has 0 or 1). masks and noise have 2l * N words, key_lv1 N, out 2l * 2N. Refusals 1, 2, 4. */
egl_answer egl_trgsw_encrypt_torus(EGL_PARAMS, uint32_t m, const uint32_t *masks, size_t masks_len, const uint32_t *noise, size_t noise_len, const uint32_t *key_lv1, size_t key_lv1_len, uint32_t *out, size_t out_len);

/* The bootstrapping key: such a part for each of the n bits of key_lv0. masks and noise have n * 2l * N words, out n * 2l * 2N. Refusals 1, 2, 4. */
egl_answer egl_trgsw_gen_bootstrapping_key(EGL_PARAMS, const uint32_t *key_lv0, size_t key_lv0_len, const uint32_t *key_lv1, size_t key_lv1_len, const uint32_t *masks, size_t masks_len, const uint32_t *noise, size_t noise_len, uint32_t *out, size_t out_len);

/* ---- decomposition, external product, blind rotation, key switching ---- */

/* The 2l digit polynomials of a pair, N words each: the l digits of a, the highest first, then those of b. A digit is a word that, read as signed
 * (int32_t), lies from -2^(bgbit - 1) to 2^(bgbit - 1) - 1; digit i, from 0, counts 2^(32 - (i + 1) * bgbit), and the sum of all is the coefficient with its
 * 32 - l * bgbit low bits cleared, modulo 2^32. out has 2l * N words. Refusals 1, 2. */
egl_answer egl_trgsw_decomposition(EGL_PARAMS, const uint32_t *a, size_t a_len, const uint32_t *b, size_t b_len, uint32_t *out, size_t out_len);

/* The sum of digit polynomial times row; rows has 2l rows of 2N words, a then b. Refusals 1, 2. */
egl_answer egl_trgsw_external_product(EGL_PARAMS, const uint32_t *rows, size_t rows_len, const uint32_t *a, size_t a_len, const uint32_t *b, size_t b_len, uint32_t *outa, size_t outa_len, uint32_t *outb, size_t outb_len);

/* (a1, b1) + external product of (a2 - a1, b2 - b1). Refusals 1, 2. */
egl_answer egl_trgsw_cmux(EGL_PARAMS, const uint32_t *a1, size_t a1_len, const uint32_t *b1, size_t b1_len, const uint32_t *a2, size_t a2_len, const uint32_t *b2, size_t b2_len, const uint32_t *rows, size_t rows_len, uint32_t *outa, size_t outa_len, uint32_t *outb, size_t outb_len);

/* Step i of the blind rotation, i below n, in place on the accumulator (a, b), with the mask word of that step; key is the whole bootstrapping key, n times 2l
 * rows of 2N words. Accumulators that are aligned to 16 bytes are faster, here and below, by about a hundredth; none has to be. Refusals 1, 2, 3. */
egl_answer egl_trgsw_blind_rotate_step(EGL_PARAMS, const uint32_t *key, size_t key_len, size_t i, uint32_t mask, uint32_t *a, size_t a_len, uint32_t *b, size_t b_len);

/* The blind rotation of the test vector by the level-0 ciphertext src. Refusals 1, 2. */
egl_answer egl_trgsw_blind_rotate(EGL_PARAMS, const uint32_t *src, size_t src_len, const uint32_t *key, size_t key_len, uint32_t *a, size_t a_len, uint32_t *b, size_t b_len);

/* A level-1 ciphertext src (N + 1 words) under the level-0 key; ksk is the switching key, of which the rows that the fields of src choose are subtracted. A field of 0
 * chooses none, and no word of out depends on a row that is not chosen. Refusals 1, 2. */
egl_answer egl_trgsw_identity_key_switching(EGL_PARAMS, const uint32_t *src, size_t src_len, const uint32_t *ksk, size_t ksk_len, uint32_t *out, size_t out_len);

/* ---- gates on level-0 ciphertexts (n + 1 words each); ksk is the switching key, bsk the bootstrapping key. Refusals 1, 2. ---- */

/* not (a and b) */
egl_answer egl_gates_nand(EGL_PARAMS, const uint32_t *a, size_t a_len, const uint32_t *b, size_t b_len, const uint32_t *ksk, size_t ksk_len, const uint32_t *bsk, size_t bsk_len, uint32_t *out, size_t out_len);
/* a or b */
egl_answer egl_gates_or(EGL_PARAMS, const uint32_t *a, size_t a_len, const uint32_t *b, size_t b_len, const uint32_t *ksk, size_t ksk_len, const uint32_t *bsk, size_t bsk_len, uint32_t *out, size_t out_len);
/* a and b */
egl_answer egl_gates_and(EGL_PARAMS, const uint32_t *a, size_t a_len, const uint32_t *b, size_t b_len, const uint32_t *ksk, size_t ksk_len, const uint32_t *bsk, size_t bsk_len, uint32_t *out, size_t out_len);
/* not (a or b) */
egl_answer egl_gates_nor(EGL_PARAMS, const uint32_t *a, size_t a_len, const uint32_t *b, size_t b_len, const uint32_t *ksk, size_t ksk_len, const uint32_t *bsk, size_t bsk_len, uint32_t *out, size_t out_len);
/* (not a) and b */
egl_answer egl_gates_and_ny(EGL_PARAMS, const uint32_t *a, size_t a_len, const uint32_t *b, size_t b_len, const uint32_t *ksk, size_t ksk_len, const uint32_t *bsk, size_t bsk_len, uint32_t *out, size_t out_len);
/* a and (not b) */
egl_answer egl_gates_and_yn(EGL_PARAMS, const uint32_t *a, size_t a_len, const uint32_t *b, size_t b_len, const uint32_t *ksk, size_t ksk_len, const uint32_t *bsk, size_t bsk_len, uint32_t *out, size_t out_len);
/* (not a) or b */
egl_answer egl_gates_or_ny(EGL_PARAMS, const uint32_t *a, size_t a_len, const uint32_t *b, size_t b_len, const uint32_t *ksk, size_t ksk_len, const uint32_t *bsk, size_t bsk_len, uint32_t *out, size_t out_len);
/* a or (not b) */
egl_answer egl_gates_or_yn(EGL_PARAMS, const uint32_t *a, size_t a_len, const uint32_t *b, size_t b_len, const uint32_t *ksk, size_t ksk_len, const uint32_t *bsk, size_t bsk_len, uint32_t *out, size_t out_len);
/* a xor b */
egl_answer egl_gates_xor(EGL_PARAMS, const uint32_t *a, size_t a_len, const uint32_t *b, size_t b_len, const uint32_t *ksk, size_t ksk_len, const uint32_t *bsk, size_t bsk_len, uint32_t *out, size_t out_len);
/* a xor b: the original's xnor computes xor, and so does this one */
egl_answer egl_gates_xnor(EGL_PARAMS, const uint32_t *a, size_t a_len, const uint32_t *b, size_t b_len, const uint32_t *ksk, size_t ksk_len, const uint32_t *bsk, size_t bsk_len, uint32_t *out, size_t out_len);

/* b where a is true, else c: two rotations and one switch. */
egl_answer egl_gates_mux(EGL_PARAMS, const uint32_t *a, size_t a_len, const uint32_t *b, size_t b_len, const uint32_t *c, size_t c_len, const uint32_t *ksk, size_t ksk_len, const uint32_t *bsk, size_t bsk_len, uint32_t *out, size_t out_len);

/* The same of three gates: or(and(a, b), and(not a, c)). */
egl_answer egl_gates_mux_naive(EGL_PARAMS, const uint32_t *a, size_t a_len, const uint32_t *b, size_t b_len, const uint32_t *c, size_t c_len, const uint32_t *ksk, size_t ksk_len, const uint32_t *bsk, size_t bsk_len, uint32_t *out, size_t out_len);

/* Each word negated, modulo 2^32. */
egl_answer egl_gates_not(EGL_PARAMS, const uint32_t *a, size_t a_len, uint32_t *out, size_t out_len);

/* A copy. */
egl_answer egl_gates_copy(EGL_PARAMS, const uint32_t *a, size_t a_len, uint32_t *out, size_t out_len);

/* A bit, 0 or not 0, that every key decrypts: n words of 0, then 0x20000000 for true, 0xE0000001 for false. */
egl_answer egl_gates_constant(EGL_PARAMS, uint32_t bit, uint32_t *out, size_t out_len);

/* ---- a column: the same gate on many pairs ---- */

/* The gate of a kind on count pairs. kind is a circuit's number (see below): 3 is egl_gates_and, 4 or, 5 nand, 6 nor, 7 xor, 8 not (a xor b), 9 and_ny, 10 and_yn,
 * 11 or_ny, 12 or_yn. pairs has count * 2 * (n + 1) words, pair after pair, a then b; out has count * (n + 1), a ciphertext for each pair. The words are those of
 * one call of the gate for each pair, and a pair changes no result but its own. Kind 8 has its Boolean meaning: its words are those of egl_gates_xor and then
 * egl_gates_not (the original's batch_xnor computes xor). With count 0 nothing is written, and the answer is 0 where nothing is refused.
 *
 * A pair takes as long as egl_gates_nand, and the thread that calls does them all. A caller who wants several processors cuts pairs and out between the same
 * pairs and calls in several threads, a part each; one who wants to see progress calls part after part. The words are the same. Refusals 1, 2 (also for a count
 * whose words are more than a size_t holds), 9 with place 0 for a kind that is not 3 to 12. */
egl_answer egl_gate_column(EGL_PARAMS, size_t kind, size_t count, const uint32_t *pairs, size_t pairs_len, const uint32_t *ksk, size_t ksk_len, const uint32_t *bsk, size_t bsk_len, uint32_t *out, size_t out_len);

/* ---- circuits, as bytes ----
 *
 * Fields of two bytes have the low byte first. A circuit is, from byte 0 on:
 *   0   the mark, three bytes 'E' 'G' 'L'
 *   3   the version, 1
 *   5   inputs, 0 to 256        7   gates, 0 to 1,024        9   outputs, 1 to 64
 *   11  8 bytes for each gate: its kind (one byte), a zero byte, three operands of two bytes
 *   11 + 8 * gates   two bytes for each output: a wire
 * and nothing more: 11 + 8 * gates + 2 * outputs bytes, at most EGL_CIRCUIT_BYTES. The inputs are wires 0, 1, 2 and so on, gate g (from 0) gives wire inputs + g. An
 * operand is a wire below the gate's own; operands that a kind does not need are 0, behind those that it needs. An output is any wire. Kinds, with operands a, b, c:
 *   0 false            1 true             2 not a            3 a and b          4 a or b
 *   5 not (a and b)    6 not (a or b)     7 a xor b          8 not (a xor b)    9 (not a) and b
 *   10 a and (not b)   11 (not a) or b    12 a or (not b)    13 b where a is true, else c
 * A refused circuit's place is the first byte of the field at fault: 0 for the mark and for less than 11 bytes, 11 for a wrong length. */

/* The bytes of the longest circuit, and the words that egl_circuit_counts fills. */
#define EGL_CIRCUIT_BYTES 8331
#define EGL_CIRCUIT_COUNTS 5

/* Whether the bytes are a circuit. Refusals 6 to 10 with their place. */
egl_answer egl_circuit_check(const uint8_t *bytes, size_t bytes_len);

/* What a circuit has, for a caller who sizes buffers: out[0] is its version, out[1] the inputs, out[2] the gates, out[3] the outputs, out[4] its work as
 * egl_circuit_work tells it. It has out[1] + out[2] wires. out has EGL_CIRCUIT_COUNTS words. Refusals 6 to 10 with their place, then 2. */
egl_answer egl_circuit_counts(const uint8_t *bytes, size_t bytes_len, uint32_t *out, size_t out_len);

/* The work of a circuit, as the value: the number of blind rotations of its encrypted run, one for each gate of kind 3 to 12 and two for a mux, kind 13; at most
 * 2,048. At the 128-bit set runs were measured to take the work times the time of egl_gates_nand. Up to version 3 of this interface a mux counted one. Refusals 6 to 10 with their
 * place. */
egl_answer egl_circuit_work(const uint8_t *bytes, size_t bytes_len);

/* A circuit on plain bits: ins has a byte an input (0 false, any other true), out gets a byte an output, 0 or 1. Refusals 6 to 10 with their place, then 2. */
egl_answer egl_circuit_run_plain(const uint8_t *bytes, size_t bytes_len, const uint8_t *ins, size_t ins_len, uint8_t *out, size_t out_len);

/* A circuit on ciphertexts of n + 1 words each. ins has one for each input; afterwards wires has every wire's, the inputs' first and then gate after
 * gate, and out the outputs'. Kind 8 has its Boolean meaning: it runs xor and negates. A gate of kind 3 or more takes as long as egl_gates_nand (mux
 * twice as long), so a caller that wants to see progress goes gate by gate instead. Refusals 1, 2 for the keys, 6 to 10 with their place, 2 for ins,
 * wires and out. */
egl_answer egl_circuit_run_encrypted(EGL_PARAMS, const uint32_t *ksk, size_t ksk_len, const uint32_t *bsk, size_t bsk_len, const uint8_t *bytes, size_t bytes_len, const uint32_t *ins, size_t ins_len, uint32_t *wires, size_t wires_len, uint32_t *out, size_t out_len);

/* Gate g of such a run alone, from 0 on: from the wires before its own it makes its own, wire inputs + g, and no other. The inputs' ciphertexts stand in front of
 * wires from the start; all gates in order make the run. Where the circuit has no gate g nothing is written and the answer is 0. Refusals 1, 2 for the
 * keys, 6 to 10 with their place, 2 for wires. */
egl_answer egl_circuit_run_gate(EGL_PARAMS, const uint32_t *ksk, size_t ksk_len, const uint32_t *bsk, size_t bsk_len, const uint8_t *bytes, size_t bytes_len, size_t g, uint32_t *wires, size_t wires_len);

/* ---- circuits as text (Bristol Fashion) ----
 *
 * A text's tokens are the runs of bytes other than space, tab, CR and LF; line ends mean nothing more. A number is decimal digits, leading zeros allowed, below
 * 2^32. A text is, token after token:
 *   G and W             the number of gates and of wires
 *   p and p sizes       the number of input values and how many wires each has: I wires in all, which may be 0
 *   q and q sizes       the number of output values and how many wires each has: O wires in all
 *   G gates             how many operands, how many results, the operands, the results, the name
 * and nothing more. Wires are 0 to W - 1. The first I are the inputs; each other wire is the result of exactly one gate, in any numbering, and no gate reads a
 * wire before it is set. The last O are the outputs. Gates, with operands a, b and the result c:
 *   2 1 a b c XOR       c is a xor b                   2 1 a b c AND       c is a and b
 *   1 1 a c INV         c is not a                     1 1 a c EQW         c is a
 *   1 1 0 c EQ          c is false                     1 1 1 c EQ          c is true: 0 and 1 are no wires there
 *   MAND                k ANDs at once: 2k operands, k and then their partners, and k results. It is in the form, but no circuit is made of it. */

/* The bytes of the longest text that an export writes. */
#define EGL_BRISTOL_BYTES 71830

/* A text's circuit as bytes, into the front of out. The value is its length, at most EGL_CIRCUIT_BYTES; the bytes of out behind it stay as they were. The inputs
 * are the text's, in order. XOR becomes a gate of kind 7, AND 3, INV 2, EQ 0 or 1, in the text's order; EQW makes no gate, for its result is its operand's
 * wire. The outputs are the text's last O wires, in order. The circuit means what the text means. A text may have any length, but bound the
 * length of those that come from strangers: with more than 24,576 wires, which takes thousands of EQW, each of the circuit's operands and outputs costs a way
 * through the text (seconds for 0.6 MB, minutes for 6 MB), and with more than 393,216 wires the time grows with the square of the text's length.
 *
 * Refusals 11; 12 for a MAND, for more than 256 inputs, for no output or more than 64, for more than 1,024 gates that are not EQW; then 2. An 11 anywhere in the
 * text comes before any 12. The place is the first byte of the earliest token that shows the fault, or the text's length where it ends too early; 2^32 - 1 stands
 * for every place from there on. */
egl_answer egl_bristol_import(const uint8_t *text, size_t text_len, uint8_t *out, size_t out_len);

/* A circuit's text, into the front of out. The value is its length, at most EGL_BRISTOL_BYTES; the bytes of out behind it stay as they were. It has a line with G
 * and W, one with `1` and I, one with `1` and O, an empty line, and a line for each gate; one space stands between tokens, and LF ends each line. A gate of kind
 * 0, 1, 2, 3 or 7 becomes one gate of the text, 5, 8, 9 or 10 two, 4, 6, 11, 12 or 13 three, all of XOR, AND, INV and EQ, in the circuit's order, and each sets
 * the next wire; then an EQW sets each output. The text means what the circuit means. An import takes it back, with the same meaning and other gates, unless they
 * are more than 1,024 (12). Refusals 6 to 10 with their place, then 2. */
egl_answer egl_bristol_export(const uint8_t *bytes, size_t bytes_len, uint8_t *out, size_t out_len);

/* ---- drift, for whoever holds both secret keys: key is the level-0 key (n words), z the level-1 key (N words), all words 0 or 1 ----
 *
 * A wire's drift is how far its phase is from the eighths of a turn that it carries, a word that counts 2^-32 of a turn and is to be read as signed
 * (int32_t). A gate rotates a sum of its operands, mux two sums; what operands and rounding bring into a rotation is the brought-in drift. Inside means
 * below an eighth of a turn, 2^29, in absolute value. */

/* What egl_circuit_run_encrypted does, and the drift of each wire into drifts, one word for each in wire order. plain has a byte an input, 0 for false and any
 * other for true: the bits that the inputs are meant to carry. The value is 1 where the drift brought into every rotation of every gate and the drift of every
 * output are inside, else 0. Where it is 1, each output decrypts to the bit that egl_circuit_run_plain gives for plain, whatever the key material and the
 * ciphertexts hold. Refusals 1, 2 for ksk, bsk, key and z, 4, 6 to 10 with their place, 2 for ins, plain, wires, out and drifts. */
egl_answer egl_drift_run(EGL_PARAMS, const uint32_t *ksk, size_t ksk_len, const uint32_t *bsk, size_t bsk_len, const uint32_t *key, size_t key_len, const uint32_t *z, size_t z_len, const uint8_t *bytes, size_t bytes_len, const uint32_t *ins, size_t ins_len, const uint8_t *plain, size_t plain_len, uint32_t *wires, size_t wires_len, uint32_t *out, size_t out_len, uint32_t *drifts, size_t drifts_len);

/* Gate g of such a run alone, from 0 on: it reads the wires and drifts before its own and writes its own, wire inputs + g. The inputs' ciphertexts and drifts
 * (egl_fresh_drift) stand in front from the start; all gates in order make the run. The value is the drift brought into its rotation, of mux's two the one that
 * is larger in absolute value and the first where they are alike; 0 for a gate that rotates nothing. Where the circuit has no gate g nothing is written and the
 * answer is 0. Refusals 1, 2 for ksk, bsk, key and z, 4, 6 to 10 with their place, 2 for wires and drifts. */
egl_answer egl_drift_gate(EGL_PARAMS, const uint32_t *ksk, size_t ksk_len, const uint32_t *bsk, size_t bsk_len, const uint32_t *key, size_t key_len, const uint32_t *z, size_t z_len, const uint8_t *bytes, size_t bytes_len, size_t g, uint32_t *wires, size_t wires_len, uint32_t *drifts, size_t drifts_len);

/* The drift of a ciphertext c (n + 1 words) that is meant to carry a bit, 0 or not 0, as the value: its phase less 2^29 for true, less -2^29 for false.
 * Refusals 1, 2, 4. */
egl_answer egl_fresh_drift(EGL_PARAMS, const uint32_t *key, size_t key_len, const uint32_t *c, size_t c_len, uint8_t bit);

/* 1 where a drift is inside, else 0. */
uint32_t egl_drift_inside(uint32_t drift);

/* ---- a report over many wires' drifts ----
 *
 * A drift's size is the number of bits of its absolute value: 32 less its leading zeros, so 0 has size 0, 1 and -1 have 1, -2^31 has 32. A drift is inside (see
 * above) exactly where its size is at most EGL_DRIFT_REPORT_INSIDE. A report tells how many wires had each size; the drift that is largest in absolute value, the earliest at
 * a tie; its wire, which is its place in the report, from 0; and of how many wires it is, at most EGL_DRIFT_REPORT_WIRES. Its counts add up to that total. It speaks of
 * the drifts that it is given, those of wires, and not of what is brought into rotations: that a run's outputs are right, egl_drift_run's value tells, and no report.
 *
 * A report crosses as EGL_DRIFT_REPORT_WORDS words in this order: the 33 counts, the largest drift, its wire, the total. The struct below is these words, for it has no
 * padding; EGL_DRIFT_REPORT(&r) hands one over as the pointer and the length that a call takes:
 *     egl_drift_report_of(drifts, wires, EGL_DRIFT_REPORT(&r)) */

#define EGL_DRIFT_REPORT_WORDS 36
#define EGL_DRIFT_REPORT_WIRES 65535
#define EGL_DRIFT_REPORT_INSIDE 29

typedef struct {
    uint32_t counts[33]; /* counts[s]: the wires whose drift has size s */
    int32_t largest;     /* the drift that is largest in absolute value; 0 in the report of no wire */
    uint32_t wire;       /* its place in the report, from 0 */
    uint32_t total;      /* the number of wires */
} egl_drift_report;

/* the choice is always the first: it is there so that the compiler tells of a pointer to another type (a void * passes, and a const report too, which out must not be) */
#define EGL_DRIFT_REPORT(report) ((uint32_t *)(1 ? (report) : (egl_drift_report *)0)), EGL_DRIFT_REPORT_WORDS

/* The report of no wire: zeros. Refusal 2. */
egl_answer egl_drift_report_empty(uint32_t *out, size_t out_len);

/* The report of these drifts, as egl_drift_run leaves them. Refusals 2 for out, 13 for more than EGL_DRIFT_REPORT_WIRES drifts. */
egl_answer egl_drift_report_of(const uint32_t *drifts, size_t drifts_len, uint32_t *out, size_t out_len);

/* The report of the first's wires followed by the second's. A tie goes to the first's wire; a wire of the second is moved up by the first's total. Merging a report
 * with that of no wire, on either side, gives it again. first and second may be one buffer; out must overlap neither, so to add to a report merge into a second struct
 * and assign that. Refusals 2 for first, second and out, 13 where the totals add up to more than EGL_DRIFT_REPORT_WIRES.
 *
 * Any words are taken for a report. Counts add modulo 2^32; the second's largest is taken exactly where the second's total is not 0 and the first's total is 0 or the
 * second's largest is greater in absolute value, and its wire is then the first's total plus the second's wire, modulo 2^32. So words whose total is not too large stay
 * as they are with the report of no wire as second, and with it as first too, but that a largest and a wire beside a total of 0 become 0. */
egl_answer egl_drift_report_merge(const uint32_t *first, size_t first_len, const uint32_t *second, size_t second_len, uint32_t *out, size_t out_len);

/* ---- lookup tables on small messages ----
 *
 * A message of modulus M (2, 4, 8, 16, 32 or 64) has the word (m mod M) * 2^31 / M: the messages share half a turn (see egl_tlwe_encrypt_message_lv0). A table of modulus M is
 * M words f(0) to f(M - 1), and a lookup turns a ciphertext of the message m into one of the word f(m), whatever words these are. It takes one blind rotation, as long as
 * egl_gates_nand. Twice the modulus has to divide N, so M is at most N / 2 (refusal 5).
 *
 * What f(m) is for:
 *   messages of modulus R    f(m) = (r mod R) * 2^31 / R; the result decrypts by egl_tlwe_decrypt_message_lv0, and a table of modulus R takes it: tables chain
 *   bits for gates           f(m) = 0x20000000 for true, 0xE0000000 for false; the result is a gate's operand
 *
 * Messages are added beforehand, by egl_tlwe_add_lv0, egl_tlwe_sub_lv0 and their multiples, all operands being of the table's modulus; a plain message is added to the last word alone. The
 * sum has to stay from 0 to M - 1, which is the caller's to see to: half a turn is M, and past it the words turn their sign, so that m + M yields -f(m).
 *
 * Margins. A message's own drift is its phase less its word; a sum's is the same sum of its operands' drifts. With what rounding adds it is the brought-in drift, and as long as that is
 * strictly inside 2^31 / (2M), f(m) comes out, plus the output's drift. A result of modulus R is right where the output's drift is strictly inside 2^31 / (2R): 2^29 for R = 2, which is
 * a gate's margin for a bit. Rounding alone spreads by about sqrt(n / 6) * 2^30 / N, so that no set serves every M: egl_lookup_drift tells what is left. */

/* The test vector of a table: a becomes zero; coefficient i of b becomes f at (i * M + N/2) div N, and where that is M f(0) negated (each bit's complement plus one). table has M words
 * whatever M is, a and b N. Refusals 1, 2, 5. */
egl_answer egl_table_testvec(EGL_PARAMS, uint64_t modulus, const uint32_t *table, size_t table_len, uint32_t *a, size_t a_len, uint32_t *b, size_t b_len);

/* What egl_trgsw_blind_rotate does, of the caller's own test vector (va, vb), N words each, which may hold anything. src is a level-0 ciphertext, key the bootstrapping key. Refusals 1, 2. */
egl_answer egl_trgsw_blind_rotate_with_testvec(EGL_PARAMS, const uint32_t *src, size_t src_len, const uint32_t *va, size_t va_len, const uint32_t *vb, size_t vb_len, const uint32_t *key, size_t key_len, uint32_t *a, size_t a_len, uint32_t *b, size_t b_len);

/* The lookup: the table's test vector rotated by the ciphertext c of a message, extracted at 0 and switched back to level 0. table has M words, c and out n + 1; ksk is the switching
 * key, bsk the bootstrapping key. Refusals 1, 2, 5. */
egl_answer egl_lookup(EGL_PARAMS, uint64_t modulus, const uint32_t *table, size_t table_len, const uint32_t *c, size_t c_len, const uint32_t *ksk, size_t ksk_len, const uint32_t *bsk, size_t bsk_len, uint32_t *out, size_t out_len);

/* What egl_lookup does, and its drifts, for whoever holds both secret keys (see drift above): c is meant to carry the message value mod M. drifts, EGL_LOOKUP_DRIFTS words to be read as
 * signed (int32_t), gets the brought-in drift and then the output's. The value is 1 where the first is strictly inside 2^31 / (2M) and the second strictly inside 2^31 / (2 * results),
 * else 0. results is the modulus by which the result is judged: that of its messages, 2 for bits.
 *
 * The output's drift is reckoned from what the rotation brings to the front. Where the brought-in drift is strictly inside 2^31 / (2M), that is f(value mod M): the phase of out is
 * f(value mod M) plus the output's drift modulo 2^32, whatever the key material and the ciphertext hold. Where the value is 1 and f(value mod M) is the word of a message of modulus
 * results, or of a bit (2^29, 2^32 - 2^29), out decrypts to that message or bit. The output's drift is then the own drift of the message in a next table of modulus results, and of a bit
 * for gates it is what egl_fresh_drift gives. Refusals 1, 2, 4 for key and z, 5 also where results is not 2, 4, 8, 16, 32 or 64. */
#define EGL_LOOKUP_DRIFTS 2
egl_answer egl_lookup_drift(EGL_PARAMS, uint64_t modulus, const uint32_t *table, size_t table_len, uint64_t results, uint64_t value, const uint32_t *ksk, size_t ksk_len, const uint32_t *bsk, size_t bsk_len, const uint32_t *key, size_t key_len, const uint32_t *z, size_t z_len, const uint32_t *c, size_t c_len, uint32_t *out, size_t out_len, uint32_t *drifts, size_t drifts_len);

#ifdef __cplusplus
}
#endif

#endif
