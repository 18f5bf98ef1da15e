/* taylor.h: truncated power series in up to four variables, on buffers that the caller lends.
 *
 * A polynomial is a header word and its coefficients, last variable fastest. The header word has, most significant bit
 * first, the number of variables (3 bits), then four times limit less one (6) and length less one (6), then 13 zero
 * bits; fields of missing variables are zero.
 *
 * Every function answers one word.
 *   - A function that makes a polynomial answers its header word, whose low five bits are zero, or a refusal, whose low
 *     five bits are not: number + 2^8 place + 2^16 variable + 2^24 cause. Done, the announced places of `out` hold the
 *     coefficients, then +0.0, and 8 times as many of `scratch` hold +0.0; the rest is untouched. Refused, no buffer
 *     changes.
 *   - A function that reads a number answers 0 and writes it through its last pointer, or answers a refusal and writes
 *     nothing.
 *   - taylor_extract_linear answers 0 for no and 1 + variable for yes, or a refusal + 2^32.
 *
 * Refusals: 1 header word or limit breaks the rules; 2 fewer coefficients than the header says; 3 variable, or a
 * missing variable's index; 4 k, order or index not below the limit, or a total not finite or not above zero; 5 more
 * than 4,096 places, or `out` too short; 6 `scratch` shorter than 8 times the announced count; 11 no running sum
 * reaches q; 12 a constant is not from -8 to 8. The lowest wins. The place of these refusals is 64, for none in
 * particular, but for those of taylor_check and taylor_run, which name an input or a step.
 *
 * Number 1 says which variable is wrong, 4 for none, and the cause, the first of these in order: 1 more than 4
 * variables; then for each variable in turn 2 its length is above its limit, or 3 it is missing and its fields are not
 * zero; 4 the last 13 bits are not zero; 5 more than 4,096 coefficients. Cause 6 is a constructor's: variable 4 for too
 * many limits, else the first that is not 1 to 64. Of two bad operands the first is told. With every other number both
 * are 0.
 *
 * A buffer is a pointer and a count of doubles. The pointer is aligned and not null, also where the count is 0. `out`,
 * `scratch` and what a float is written to overlap nothing else that is passed. */
#ifndef TAYLOR_H
#define TAYLOR_H

#include <stddef.h>
#include <stdint.h>

#ifdef __cplusplus
extern "C" {
#endif

/* ---- answers */

/* whether a polynomial was made, or a number read */
static inline int taylor_done(uint64_t answer) { return (answer & 31) == 0; }
static inline unsigned taylor_refusal_number(uint64_t answer) { return (unsigned)(answer & 255); }
static inline unsigned taylor_refusal_place(uint64_t answer) { return (unsigned)((answer >> 8) & 255); }
static inline unsigned taylor_refusal_variable(uint64_t answer) { return (unsigned)((answer >> 16) & 255); }
static inline unsigned taylor_refusal_cause(uint64_t answer) { return (unsigned)((answer >> 24) & 255); }
/* whether taylor_extract_linear was refused; number, place, variable and cause are read as above */
static inline int taylor_linear_refused(uint64_t answer) { return answer >> 32 != 0; }

/* ---- constructors */

/* +0.0, 1.0 and c, with no variables: refusal 5 */
uint64_t taylor_zero(double *out, size_t out_len);
uint64_t taylor_one(double *out, size_t out_len);
uint64_t taylor_from_u32(uint32_t c, double *out, size_t out_len);

/* +0.0 and c, under the first `vars` of four limits: refusals 1, 5 */
uint64_t taylor_zero_with(uint64_t vars, uint64_t l0, uint64_t l1, uint64_t l2, uint64_t l3, double *out, size_t out_len);
uint64_t taylor_from_u32_with(uint32_t c, uint64_t vars, uint64_t l0, uint64_t l1, uint64_t l2, uint64_t l3, double *out, size_t out_len);

/* x + v, under the first `vars` of four limits: refusals 1, 3, 5 */
uint64_t taylor_var_with_degrees_p1(uint64_t v, double x, uint64_t vars, uint64_t l0, uint64_t l1, uint64_t l2, uint64_t l3, double *out,
                                    size_t out_len);

/* x + v, and v itself, every variable up to v under one limit: refusals 1, 3, 5 */
uint64_t taylor_var(uint64_t v, double x, uint64_t limit, double *out, size_t out_len);
uint64_t taylor_var_at_zero(uint64_t v, uint64_t limit, double *out, size_t out_len);

/* ---- readings */

/* the coefficient at an index, +0.0 past a stored length: refusals 1, 2, 3, 4 */
uint64_t taylor_coefficient(uint64_t head, const double *a, size_t a_len, uint64_t i0, uint64_t i1, uint64_t i2, uint64_t i3, double *value);

/* the coefficient at 0, 0, 0, 0; the value where every variable is 1: refusals 1, 2 */
uint64_t taylor_constant_term(uint64_t head, const double *a, size_t a_len, double *value);
uint64_t taylor_evaluate_all_one(uint64_t head, const double *a, size_t a_len, double *value);

/* whether the polynomial is c + m * v; c and m are 0.0 for no: refusals 1, 2 */
uint64_t taylor_extract_linear(uint64_t head, const double *a, size_t a_len, double *c, double *m);

/* one variable: (total less the sum of the stored coefficients 0 to k) over total; refusals 1, 2, 3, 4 */
uint64_t taylor_tail(uint64_t head, const double *a, size_t a_len, uint64_t k, double total, double *value);

/* one variable: through k the least k whose running sum, of the stored coefficients 0 to k from +0.0 upwards, is at
   least q; refusals 1, 2, 3, and 11 where no running sum is */
uint64_t taylor_least(uint64_t head, const double *a, size_t a_len, double q, uint64_t *k);

/* the powers of v up to `order`; the row `order` of v: refusals 1, 2, 3, 4, 5 */
uint64_t taylor_taylor_polynomial(uint64_t head, const double *a, size_t a_len, uint64_t v, uint64_t order, double *out, size_t out_len);
uint64_t taylor_coefficients_of_term(uint64_t head, const double *a, size_t a_len, uint64_t v, uint64_t order, double *out, size_t out_len);

/* ---- operations */

/* -a: refusals 1, 2, 5 */
uint64_t taylor_negate(uint64_t head, const double *a, size_t a_len, double *out, size_t out_len);

/* a + b, a - b, a * b, a / b, cut to the smaller limits: refusals 1, 2, 5, 6 */
uint64_t taylor_add(uint64_t ah, const double *a, size_t a_len, uint64_t bh, const double *b, size_t b_len, double *out, size_t out_len,
                    double *scratch, size_t scratch_len);
uint64_t taylor_subtract(uint64_t ah, const double *a, size_t a_len, uint64_t bh, const double *b, size_t b_len, double *out, size_t out_len,
                         double *scratch, size_t scratch_len);
uint64_t taylor_multiply(uint64_t ah, const double *a, size_t a_len, uint64_t bh, const double *b, size_t b_len, double *out, size_t out_len,
                         double *scratch, size_t scratch_len);
uint64_t taylor_divide(uint64_t ah, const double *a, size_t a_len, uint64_t bh, const double *b, size_t b_len, double *out, size_t out_len,
                       double *scratch, size_t scratch_len);

/* exp and log; value is theirs at the constant term, exp(a[0]) or log(a[0]) by the caller: refusals 1, 2, 5, 6 */
uint64_t taylor_exp(uint64_t head, const double *a, size_t a_len, double value, double *out, size_t out_len, double *scratch,
                    size_t scratch_len);
uint64_t taylor_log(uint64_t head, const double *a, size_t a_len, double value, double *out, size_t out_len, double *scratch,
                    size_t scratch_len);

/* through value e to the x, within 2^-40, relative, of the sum of the series' first 120 terms, for x from -8 to 8: a
   head that taylor_exp takes; refusal 12 for any other x, a NaN too */
uint64_t taylor_exp_constant(double x, double *value);

/* a to the power e; 0 gives one with no variables: refusals 1, 2, 5, 6 */
uint64_t taylor_pow(uint64_t head, const double *a, size_t a_len, uint32_t e, double *out, size_t out_len, double *scratch,
                    size_t scratch_len);

/* the n-th derivative in v; the same without its factor n!; the coefficients of v moved down by n, the sum of those
   that would leave added at 0: refusals 1, 2, 3, 4, 5 */
uint64_t taylor_derivative(uint64_t head, const double *a, size_t a_len, uint64_t v, uint64_t n, double *out, size_t out_len);
uint64_t taylor_taylor_expansion_of_coeff(uint64_t head, const double *a, size_t a_len, uint64_t v, uint64_t n, double *out, size_t out_len);
uint64_t taylor_shift_down(uint64_t head, const double *a, size_t a_len, uint64_t v, uint64_t n, double *out, size_t out_len);

/* a with b for its variable v, cut to the smaller limits; a itself where it has no such variable: refusals 1, 2, 5,
   6 */
uint64_t taylor_subst_var(uint64_t ah, const double *a, size_t a_len, uint64_t bh, const double *b, size_t b_len, uint64_t v, double *out,
                          size_t out_len, double *scratch, size_t scratch_len);

/* whether a recipe of an edition (0 the source's; 1 whose power of zero keeps its operand's limits; any other is
   refused) can be run, from header and step words alone: 0, and through the pointers the pool total, the
   largest announced step count and the input coefficient total; or refusals 1, 3, 4, 5, 7, and nothing is written.
   A step of kind 11 is never refused here for its operand's constant */
uint64_t taylor_check(const uint64_t *headers, size_t headers_len, const uint64_t *steps, size_t steps_len, uint64_t edition,
                      uint64_t *pool, uint64_t *largest, uint64_t *inputs);

/* the steps of a recipe of an edition, on the inputs' coefficients end to end: 0, each step's value in the pool at its
   announced count, its header word in words; the scratch has 8 times the largest announced count: refusals 1 to 7, and
   nothing is written; or 12 at the place of the first step of kind 11 whose operand's constant is not from -8 to 8, and
   all announced places of the pool and the used scratch are +0.0, the word of every step 0, the rest untouched */
uint64_t taylor_run(const uint64_t *headers, size_t headers_len, const double *coefficients, size_t coefficients_len, const uint64_t *steps,
                    size_t steps_len, uint64_t edition, double *pool, size_t pool_len, uint64_t *words, size_t words_len, double *scratch,
                    size_t scratch_len);

/* ---- the settings store: 32 departments in 544 lent words, the last eight versions of each
 *
 * Each function answers 0 and writes through its pointers, or a refusal (number + 256 * 64) and writes nothing: 18
 * fewer than 544 words or, but for settings_fresh, words that no calls leave; 3 department above 31; 4 chance not
 * from 0 to 1, horizon not 1 to 255, recipe above 65,535; 13 `from` is not the current version; 14 version not kept;
 * 15 the current version is 2^32 - 1. The first in the order named at a function is told. */

/* every department at version 0: chance 0.0, horizon 1, recipe 0; refusal 18 */
uint64_t settings_fresh(uint64_t *words, size_t len);

/* the current version; a kept one: refusals 18, 3; 18, 3, 14 */
uint64_t settings_read(const uint64_t *words, size_t len, uint64_t department, uint64_t *version, double *chance, uint64_t *horizon,
                       uint64_t *recipe);
uint64_t settings_read_version(const uint64_t *words, size_t len, uint64_t department, uint64_t version, double *chance, uint64_t *horizon,
                               uint64_t *recipe);

/* the next version, started from version `from`: refusals 18, 3, 4, 13, 15 */
uint64_t settings_save(uint64_t *words, size_t len, uint64_t department, uint64_t from, double chance, uint64_t horizon, uint64_t recipe,
                       uint64_t *version);

/* the content of the version `kept` as the next one: refusals 18, 3, 13, 14, 15 */
uint64_t settings_bring_back(uint64_t *words, size_t len, uint64_t department, uint64_t from, uint64_t kept, uint64_t *version);

/* ---- NumPy array files: versions 1.0 and 2.0, little-endian f64 and f32, row and column order are read */

/* a file's values in row order at the front of out, limits and lengths its shape: refusals 10, 5, 10 in this order */
uint64_t taylor_npy_read(const uint8_t *file, size_t file_len, double *out, size_t out_len);

/* the file of a polynomial, version 1.0, its shape the stored lengths, 128 + 8 * count bytes: 0, and its length through
 * written; refusals 1, 2, 5 */
uint64_t taylor_npy_write(uint64_t head, const double *a, size_t a_len, uint8_t *file, size_t file_len, uint64_t *written);

/* the same, version 2.0 */
uint64_t taylor_npy_write_2(uint64_t head, const double *a, size_t a_len, uint8_t *file, size_t file_len, uint64_t *written);

#ifdef __cplusplus
}
#endif

#endif
