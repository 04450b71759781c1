/* The C interface of Taripomune: circle columns over the prime P = 2147483647 = 2^31 - 1.
 *
 * Every call ends on every input, checks its input itself and answers with a struct by value. `number` is 0 where the
 * call was accepted, else the number of the refusal, one of TARI_REFUSED_.. below. `position` says where in a slice
 * the refused word or element is, else it is 0. The values follow, all 0 on a refusal. A refused call writes no word
 * of any slice lent to it. The comment of a call names its refusals in the order in which they are checked: the first
 * that applies is made. docs/CALLS.md has the definition that each call is proved to meet.
 *
 * A slice is a pointer to uint32_t and then its length in words. Where the length is 0 the pointer may be NULL or any
 * other: it isn't followed. Else it must be aligned as a uint32_t is, and so many words there must be readable, and
 * writable where they aren't const. The slices of one call must not overlap, not even where one is only read: a call
 * can't see that they do, and its promise doesn't hold then.
 *
 * A number of 128 bits is passed as two of 64 bits, high and then low. */
#ifndef TARIPOMUNE_H
#define TARIPOMUNE_H

#include <stdint.h>

#ifdef __cplusplus
extern "C" {
#endif

/* ---- The numbers of refusals ----
 *
 * In the order in which a call checks. A coset is checked wholly, for 6, 4, 1 and 14, before anything else about the
 * call, and a second coset after the first. */

#define TARI_ACCEPTED 0
/* A log size is outside its range. */
#define TARI_REFUSED_LOG_SIZE 6
/* A point index isn't below 2^31; in coset_index_to_circle_domain_index, alone: the position is outside the coset. */
#define TARI_REFUSED_INDEX 4
/* A scalar or an offset is outside its range. */
#define TARI_REFUSED_SCALAR 11
/* A slice has a length that doesn't fit. */
#define TARI_REFUSED_LENGTH 8
/* The chunk size is 0. */
#define TARI_REFUSED_CHUNK 9
/* A word isn't below P; position: the lowest such word of the slice, counted in words. */
#define TARI_REFUSED_WORD 1
/* The initial or the step point of a coset isn't the point of its index. */
#define TARI_REFUSED_CONTRADICTION 14
/* A number is too large to reduce. */
#define TARI_REFUSED_REDUCTION 2
/* Zero has no inverse; position: the first zero element of the column, counted in elements. */
#define TARI_REFUSED_INVERSE 3
/* An odd index has no half. */
#define TARI_REFUSED_HALVING 5
/* More doublings or parts than the log size allows. In split the length is checked last, after this. */
#define TARI_REFUSED_DOUBLINGS 7
/* The point isn't on the circle. */
#define TARI_REFUSED_CIRCLE 10
/* The element isn't in M31. */
#define TARI_REFUSED_NARROWING 12

/* ---- Replies ---- */

typedef struct { uint32_t number; uint64_t position; uint32_t value; } tari_m31_reply;
typedef struct { uint32_t number; uint64_t position; uint32_t value; } tari_bool_reply;
typedef struct { uint32_t number; uint64_t position; uint32_t a; uint32_t b; } tari_cm31_reply;
typedef struct { uint32_t number; uint64_t position; uint32_t a; uint32_t b; uint32_t c; uint32_t d; } tari_qm31_reply;
typedef struct { uint32_t number; uint64_t position; uint32_t x; uint32_t y; } tari_point_reply;
typedef struct {
    uint32_t number; uint64_t position; uint32_t x0; uint32_t x1; uint32_t x2; uint32_t x3; uint32_t y0; uint32_t y1;
    uint32_t y2; uint32_t y3;
} tari_secure_point_reply;
typedef struct { uint32_t number; uint64_t position; uint64_t index; } tari_index_reply;
typedef struct { uint32_t number; uint64_t position; uint32_t value; } tari_u32_reply;
typedef struct { uint32_t number; uint64_t position; uint64_t value; } tari_u64_reply;
typedef struct { uint32_t number; uint64_t position; } tari_write_reply;
typedef struct {
    uint32_t number; uint64_t position; uint64_t multiplications; uint64_t inversions;
} tari_batch_reply;
typedef struct {
    uint32_t number; uint64_t position; uint64_t initial_index; uint32_t initial_x; uint32_t initial_y;
    uint64_t step_index; uint32_t step_x; uint32_t step_y; uint32_t log_size;
} tari_coset_reply;
typedef struct {
    uint32_t number; uint64_t position; uint64_t cur; uint64_t step; uint64_t remaining;
} tari_coset_iterator_reply;
typedef struct {
    uint32_t number; uint64_t position; uint32_t done; uint64_t index; uint64_t cur; uint64_t step; uint64_t remaining;
} tari_coset_step_reply;
typedef struct {
    uint32_t number; uint64_t position; uint64_t first_cur; uint64_t first_step; uint64_t first_remaining;
    uint64_t second_cur; uint64_t second_step; uint64_t second_remaining;
} tari_circle_domain_index_iterator_reply;
typedef struct {
    uint32_t number; uint64_t position; uint32_t done; uint64_t index; uint64_t first_cur; uint64_t first_step;
    uint64_t first_remaining; uint64_t second_cur; uint64_t second_step; uint64_t second_remaining;
} tari_circle_domain_step_reply;

/* ---- The version ----
 *
 * Raised with every change of a declaration of the header or of an answer. */

#define TARI_VERSION 4

/* TARI_VERSION of the library, to be compared with the header's. Never refuses. */
tari_u32_reply tari_version(void);

/* ---- M31 ----
 *
 * One word below P = 2147483647. Sums and products are those modulo P. */

/* val modulo P, for val below 2P. Refuses 2. */
tari_m31_reply tari_m31_partial_reduce(uint32_t val);
/* val modulo P, for val below P^2. Refuses 2. */
tari_m31_reply tari_m31_reduce(uint64_t val);
/* The element of the word arg, which must be below P: it is checked here, despite the name. Refuses 1. */
tari_m31_reply tari_m31_from_u32_unchecked(uint32_t arg);
/* value modulo P, for value below P^2. Refuses 2. */
tari_m31_reply tari_m31_from_usize(uint64_t value);
/* value modulo P. Never refuses. */
tari_m31_reply tari_m31_from_u32(uint32_t value);
/* value modulo P, from 0 to P - 1 also where value is negative. Never refuses. */
tari_m31_reply tari_m31_from_i32(int32_t value);
/* 0. Never refuses. */
tari_m31_reply tari_m31_zero(void);
/* 1. Never refuses. */
tari_m31_reply tari_m31_one(void);
/* 1 where a is 0, else 0. Refuses 1. */
tari_bool_reply tari_m31_is_zero(uint32_t a);
/* a + b. Refuses 1. */
tari_m31_reply tari_m31_add(uint32_t a, uint32_t b);
/* a - b. Refuses 1. */
tari_m31_reply tari_m31_sub(uint32_t a, uint32_t b);
/* -a. Refuses 1. */
tari_m31_reply tari_m31_neg(uint32_t a);
/* a times b. Refuses 1. */
tari_m31_reply tari_m31_mul(uint32_t a, uint32_t b);
/* a times a. Refuses 1. */
tari_m31_reply tari_m31_square(uint32_t a);
/* a to the power exp_high 2^64 + exp_low; 0 to the power 0 is 1. Refuses 1. */
tari_m31_reply tari_m31_pow(uint32_t a, uint64_t exp_high, uint64_t exp_low);
/* v to the power 2147483645 = P - 2: its inverse, and 0 for 0. Refuses 1. */
tari_m31_reply tari_m31_pow2147483645(uint32_t v);
/* v squared n times over, v^(2^n). Refuses 1. */
tari_m31_reply tari_m31_sqn(uint32_t v, uint64_t n);
/* The inverse of a; 0 has none. Refuses 1, 3. */
tari_m31_reply tari_m31_inverse(uint32_t a);
/* a times the inverse of b. Refuses 1, 3. */
tari_m31_reply tari_m31_div(uint32_t a, uint32_t b);
/* a itself, which is its own conjugate. Refuses 1. */
tari_m31_reply tari_m31_complex_conjugate(uint32_t a);

/* ---- CM31 ----
 *
 * a + bi with i^2 = -1, as the words a and b. An element a is passed as a0 and a1. */

/* 0. Never refuses. */
tari_cm31_reply tari_cm31_zero(void);
/* 1. Never refuses. */
tari_cm31_reply tari_cm31_one(void);
/* 1 where a is 0, else 0. Refuses 1. */
tari_bool_reply tari_cm31_is_zero(uint32_t a0, uint32_t a1);
/* The element of the words a and b, which must be below P: they are checked here, despite the name. Refuses 1. */
tari_cm31_reply tari_cm31_from_u32_unchecked(uint32_t a, uint32_t b);
/* a + bi, of a and b in M31. Refuses 1. */
tari_cm31_reply tari_cm31_from_m31(uint32_t a, uint32_t b);
/* x + 0i, of x in M31. Refuses 1. */
tari_cm31_reply tari_cm31_from_base(uint32_t x);
/* a + b. Refuses 1. */
tari_cm31_reply tari_cm31_add(uint32_t a0, uint32_t a1, uint32_t b0, uint32_t b1);
/* a - b. Refuses 1. */
tari_cm31_reply tari_cm31_sub(uint32_t a0, uint32_t a1, uint32_t b0, uint32_t b1);
/* -a. Refuses 1. */
tari_cm31_reply tari_cm31_neg(uint32_t a0, uint32_t a1);
/* a times b. Refuses 1. */
tari_cm31_reply tari_cm31_mul(uint32_t a0, uint32_t a1, uint32_t b0, uint32_t b1);
/* a times a. Refuses 1. */
tari_cm31_reply tari_cm31_square(uint32_t a0, uint32_t a1);
/* a to the power exp_high 2^64 + exp_low; 0 to the power 0 is 1. Refuses 1. */
tari_cm31_reply tari_cm31_pow(uint32_t a0, uint32_t a1, uint64_t exp_high, uint64_t exp_low);
/* a to the power 2147483645, which in CM31 isn't the inverse. Refuses 1. */
tari_cm31_reply tari_cm31_pow2147483645(uint32_t a0, uint32_t a1);
/* The inverse of a; 0 has none. Refuses 1, 3. */
tari_cm31_reply tari_cm31_inverse(uint32_t a0, uint32_t a1);
/* a times the inverse of b. Refuses 1, 3. */
tari_cm31_reply tari_cm31_div(uint32_t a0, uint32_t a1, uint32_t b0, uint32_t b1);
/* a0 - a1 i. Refuses 1. */
tari_cm31_reply tari_cm31_complex_conjugate(uint32_t a0, uint32_t a1);
/* a as an element of M31: a0, where a1 is 0. Refuses 1, 12. */
tari_m31_reply tari_cm31_try_into_m31(uint32_t a0, uint32_t a1);
/* a + b, with b in M31. Refuses 1. */
tari_cm31_reply tari_cm31_add_m31(uint32_t a0, uint32_t a1, uint32_t b);
/* a - b, with b in M31. Refuses 1. */
tari_cm31_reply tari_cm31_sub_m31(uint32_t a0, uint32_t a1, uint32_t b);
/* a times b, with b in M31. Refuses 1. */
tari_cm31_reply tari_cm31_mul_m31(uint32_t a0, uint32_t a1, uint32_t b);
/* a times the inverse of b, with b in M31. Refuses 1, 3. */
tari_cm31_reply tari_cm31_div_m31(uint32_t a0, uint32_t a1, uint32_t b);
/* a + b, with a in M31. Refuses 1. */
tari_cm31_reply tari_m31_add_cm31(uint32_t a, uint32_t b0, uint32_t b1);
/* a - b, with a in M31. Refuses 1. */
tari_cm31_reply tari_m31_sub_cm31(uint32_t a, uint32_t b0, uint32_t b1);
/* a times b, with a in M31. Refuses 1. */
tari_cm31_reply tari_m31_mul_cm31(uint32_t a, uint32_t b0, uint32_t b1);
/* a times the inverse of b, with a in M31. Refuses 1, 3. */
tari_cm31_reply tari_m31_div_cm31(uint32_t a, uint32_t b0, uint32_t b1);

/* ---- QM31 ----
 *
 * (a + bi) + (c + di)u with u^2 = 2 + i, as the words a, b, c and d. An element a is passed as a0 to a3. */

/* 0. Never refuses. */
tari_qm31_reply tari_qm31_zero(void);
/* 1. Never refuses. */
tari_qm31_reply tari_qm31_one(void);
/* 1 where a is 0, else 0. Refuses 1. */
tari_bool_reply tari_qm31_is_zero(uint32_t a0, uint32_t a1, uint32_t a2, uint32_t a3);
/* The element of four words, which must be below P: they are checked here, despite the name. Refuses 1. */
tari_qm31_reply tari_qm31_from_u32_unchecked(uint32_t a, uint32_t b, uint32_t c, uint32_t d);
/* (a + bi) + (c + di)u, of a to d in M31. Refuses 1. */
tari_qm31_reply tari_qm31_from_m31(uint32_t a, uint32_t b, uint32_t c, uint32_t d);
/* (a + bi) + (c + di)u, of a to d in M31: stwo's function of an array of four. Refuses 1. */
tari_qm31_reply tari_qm31_from_m31_array(uint32_t a, uint32_t b, uint32_t c, uint32_t d);
/* a0 to a3 as they are: stwo's function that gives an array of four. Refuses 1. */
tari_qm31_reply tari_qm31_to_m31_array(uint32_t a0, uint32_t a1, uint32_t a2, uint32_t a3);
/* x as an element of QM31, the other words 0. Refuses 1. */
tari_qm31_reply tari_qm31_from_base(uint32_t x);
/* value modulo P as an element of QM31, for value below P^2. Refuses 2. */
tari_qm31_reply tari_qm31_from_usize(uint64_t value);
/* value modulo P as an element of QM31. Never refuses. */
tari_qm31_reply tari_qm31_from_u32(uint32_t value);
/* value modulo P as an element of QM31, also of a negative value. Never refuses. */
tari_qm31_reply tari_qm31_from_i32(int32_t value);
/* a + b i + c u + d iu, of a to d in QM31. Refuses 1. */
tari_qm31_reply tari_qm31_from_partial_evals(
    uint32_t a0, uint32_t a1, uint32_t a2, uint32_t a3, uint32_t b0, uint32_t b1, uint32_t b2, uint32_t b3, uint32_t c0,
    uint32_t c1, uint32_t c2, uint32_t c3, uint32_t d0, uint32_t d1, uint32_t d2, uint32_t d3);
/* a + b. Refuses 1. */
tari_qm31_reply tari_qm31_add(
    uint32_t a0, uint32_t a1, uint32_t a2, uint32_t a3, uint32_t b0, uint32_t b1, uint32_t b2, uint32_t b3);
/* a - b. Refuses 1. */
tari_qm31_reply tari_qm31_sub(
    uint32_t a0, uint32_t a1, uint32_t a2, uint32_t a3, uint32_t b0, uint32_t b1, uint32_t b2, uint32_t b3);
/* -a. Refuses 1. */
tari_qm31_reply tari_qm31_neg(uint32_t a0, uint32_t a1, uint32_t a2, uint32_t a3);
/* a times b. Refuses 1. */
tari_qm31_reply tari_qm31_mul(
    uint32_t a0, uint32_t a1, uint32_t a2, uint32_t a3, uint32_t b0, uint32_t b1, uint32_t b2, uint32_t b3);
/* a times b, with b in CM31. Refuses 1. */
tari_qm31_reply tari_qm31_mul_cm31(uint32_t a0, uint32_t a1, uint32_t a2, uint32_t a3, uint32_t b0, uint32_t b1);
/* a times a. Refuses 1. */
tari_qm31_reply tari_qm31_square(uint32_t a0, uint32_t a1, uint32_t a2, uint32_t a3);
/* a to the power exp_high 2^64 + exp_low; 0 to the power 0 is 1. Refuses 1. */
tari_qm31_reply tari_qm31_pow(uint32_t a0, uint32_t a1, uint32_t a2, uint32_t a3, uint64_t exp_high, uint64_t exp_low);
/* a to the power 2147483645, which in QM31 isn't the inverse. Refuses 1. */
tari_qm31_reply tari_qm31_pow2147483645(uint32_t a0, uint32_t a1, uint32_t a2, uint32_t a3);
/* The inverse of a; 0 has none. Refuses 1, 3. */
tari_qm31_reply tari_qm31_inverse(uint32_t a0, uint32_t a1, uint32_t a2, uint32_t a3);
/* a times the inverse of b. Refuses 1, 3. */
tari_qm31_reply tari_qm31_div(
    uint32_t a0, uint32_t a1, uint32_t a2, uint32_t a3, uint32_t b0, uint32_t b1, uint32_t b2, uint32_t b3);
/* p - qu of p + qu: (a0 + a1 i) - (a2 + a3 i)u. Refuses 1. */
tari_qm31_reply tari_qm31_complex_conjugate(uint32_t a0, uint32_t a1, uint32_t a2, uint32_t a3);
/* a as an element of M31: a0, where the other words are 0. Refuses 1, 12. */
tari_m31_reply tari_qm31_try_into_m31(uint32_t a0, uint32_t a1, uint32_t a2, uint32_t a3);
/* a + b, with b in M31. Refuses 1. */
tari_qm31_reply tari_qm31_add_m31(uint32_t a0, uint32_t a1, uint32_t a2, uint32_t a3, uint32_t b);
/* a - b, with b in M31. Refuses 1. */
tari_qm31_reply tari_qm31_sub_m31(uint32_t a0, uint32_t a1, uint32_t a2, uint32_t a3, uint32_t b);
/* a times b, with b in M31. Refuses 1. */
tari_qm31_reply tari_qm31_mul_m31(uint32_t a0, uint32_t a1, uint32_t a2, uint32_t a3, uint32_t b);
/* a times the inverse of b, with b in M31. Refuses 1, 3. */
tari_qm31_reply tari_qm31_div_m31(uint32_t a0, uint32_t a1, uint32_t a2, uint32_t a3, uint32_t b);
/* a + b, with a in M31. Refuses 1. */
tari_qm31_reply tari_m31_add_qm31(uint32_t a, uint32_t b0, uint32_t b1, uint32_t b2, uint32_t b3);
/* a - b, with a in M31. Refuses 1. */
tari_qm31_reply tari_m31_sub_qm31(uint32_t a, uint32_t b0, uint32_t b1, uint32_t b2, uint32_t b3);
/* a times b, with a in M31. Refuses 1. */
tari_qm31_reply tari_m31_mul_qm31(uint32_t a, uint32_t b0, uint32_t b1, uint32_t b2, uint32_t b3);
/* a times the inverse of b, with a in M31. Refuses 1, 3. */
tari_qm31_reply tari_m31_div_qm31(uint32_t a, uint32_t b0, uint32_t b1, uint32_t b2, uint32_t b3);

/* ---- Batch inversion ----
 *
 * A column and its destination are 1, 2 or 4 words an element; chunk sizes count elements. Words of a longer
 * destination stay. An empty column is accepted and writes nothing.
 *
 * The reply has the multiplications of elements and the inversions that the passes made, an inversion's own products
 * left out. A pass over n elements makes 3n - 3 and 1; where n is above 4 and a multiple of 4, however long the
 * destination, it goes in four lanes and makes 3n + 1 and 1; over no elements it makes 0 and 0. A call without chunks
 * is one pass, a chunked one is a pass over each chunk, and its counts are the sums. */

/* Element k of dst becomes the inverse of element k of column. The two slices must not overlap, despite the name:
 * with one slice lent as both it answers number 0 and leaves wrong words. Refuses 8, 1, 3. */
tari_batch_reply tari_m31_batch_inverse_in_place(
    const uint32_t *column, uint64_t column_len, uint32_t *dst, uint64_t dst_len);
/* Element k of dst becomes the inverse of element k of column, chunk_size elements at a time. The two slices must
 * not overlap. Refuses 8, 9, 1, 3. */
tari_batch_reply tari_m31_batch_inverse_chunked(
    const uint32_t *column, uint64_t column_len, uint32_t *dst, uint64_t dst_len, uint64_t chunk_size);
/* Element k of dst becomes the inverse of element k of column. The two slices must not overlap, despite the name:
 * with one slice lent as both it answers number 0 and leaves wrong words. Refuses 8, 1, 3. */
tari_batch_reply tari_cm31_batch_inverse_in_place(
    const uint32_t *column, uint64_t column_len, uint32_t *dst, uint64_t dst_len);
/* Element k of dst becomes the inverse of element k of column, chunk_size elements at a time. The two slices must
 * not overlap. Refuses 8, 9, 1, 3. */
tari_batch_reply tari_cm31_batch_inverse_chunked(
    const uint32_t *column, uint64_t column_len, uint32_t *dst, uint64_t dst_len, uint64_t chunk_size);
/* Element k of dst becomes the inverse of element k of column. The two slices must not overlap, despite the name:
 * with one slice lent as both it answers number 0 and leaves wrong words. Refuses 8, 1, 3. */
tari_batch_reply tari_qm31_batch_inverse_in_place(
    const uint32_t *column, uint64_t column_len, uint32_t *dst, uint64_t dst_len);
/* Element k of dst becomes the inverse of element k of column, chunk_size elements at a time. The two slices must
 * not overlap. Refuses 8, 9, 1, 3. */
tari_batch_reply tari_qm31_batch_inverse_chunked(
    const uint32_t *column, uint64_t column_len, uint32_t *dst, uint64_t dst_len, uint64_t chunk_size);

/* ---- Points over M31 ----
 *
 * x and then y. A point needn't lie on the circle, but for log_order. */

/* The zero (1, 0). Never refuses. */
tari_point_reply tari_point_zero(void);
/* a + b = (ax bx - ay by, ax by + ay bx). Refuses 1. */
tari_point_reply tari_point_add(uint32_t ax, uint32_t ay, uint32_t bx, uint32_t by);
/* a + (bx, -by). Refuses 1. */
tari_point_reply tari_point_sub(uint32_t ax, uint32_t ay, uint32_t bx, uint32_t by);
/* (x, -y). Refuses 1. */
tari_point_reply tari_point_neg(uint32_t x, uint32_t y);
/* (x, y) + (x, y). Refuses 1. */
tari_point_reply tari_point_double(uint32_t x, uint32_t y);
/* 2x^2 - 1, the x of the double of a point of the circle. Refuses 1. */
tari_m31_reply tari_point_double_x(uint32_t x);
/* (x, y) added scalar_high 2^64 + scalar_low times to zero. Refuses 1. */
tari_point_reply tari_point_mul(uint32_t x, uint32_t y, uint64_t scalar_high, uint64_t scalar_low);
/* (x, y), or for a negative off (x, -y), added |off| times to zero; not for off = -2^63. Refuses 11, 1. */
tari_point_reply tari_point_mul_signed(uint32_t x, uint32_t y, int64_t off);
/* (x, y) doubled n times. All n doublings are made, up to 2^32 - 1: the time grows with n. Refuses 1. */
tari_point_reply tari_point_repeated_double(uint32_t x, uint32_t y, uint32_t n);
/* (x, -y). Refuses 1. */
tari_point_reply tari_point_conjugate(uint32_t x, uint32_t y);
/* (-x, -y). Refuses 1. */
tari_point_reply tari_point_antipode(uint32_t x, uint32_t y);
/* (x, y) itself: elements of M31 are their own conjugates. Refuses 1. */
tari_point_reply tari_point_complex_conjugate(uint32_t x, uint32_t y);
/* The point as one over QM31. Refuses 1. */
tari_secure_point_reply tari_point_into_ef(uint32_t x, uint32_t y);
/* The least count of doublings that reach zero, at most 31, of a point of the circle. Refuses 1, 10. */
tari_u32_reply tari_point_log_order(uint32_t x, uint32_t y);

/* ---- Points over QM31 ----
 *
 * The four words of x and then those of y. A point needn't lie on the circle. */

/* The zero (1, 0). Never refuses. */
tari_secure_point_reply tari_secure_point_zero(void);
/* a + b = (ax bx - ay by, ax by + ay bx). Refuses 1. */
tari_secure_point_reply tari_secure_point_add(
    uint32_t ax0, uint32_t ax1, uint32_t ax2, uint32_t ax3, uint32_t ay0, uint32_t ay1, uint32_t ay2, uint32_t ay3,
    uint32_t bx0, uint32_t bx1, uint32_t bx2, uint32_t bx3, uint32_t by0, uint32_t by1, uint32_t by2, uint32_t by3);
/* a + (bx, -by). Refuses 1. */
tari_secure_point_reply tari_secure_point_sub(
    uint32_t ax0, uint32_t ax1, uint32_t ax2, uint32_t ax3, uint32_t ay0, uint32_t ay1, uint32_t ay2, uint32_t ay3,
    uint32_t bx0, uint32_t bx1, uint32_t bx2, uint32_t bx3, uint32_t by0, uint32_t by1, uint32_t by2, uint32_t by3);
/* (x, -y). Refuses 1. */
tari_secure_point_reply tari_secure_point_neg(
    uint32_t x0, uint32_t x1, uint32_t x2, uint32_t x3, uint32_t y0, uint32_t y1, uint32_t y2, uint32_t y3);
/* (x, y) + (x, y). Refuses 1. */
tari_secure_point_reply tari_secure_point_double(
    uint32_t x0, uint32_t x1, uint32_t x2, uint32_t x3, uint32_t y0, uint32_t y1, uint32_t y2, uint32_t y3);
/* 2x^2 - 1, the x of the double of a point of the circle. Refuses 1. */
tari_qm31_reply tari_secure_point_double_x(uint32_t x0, uint32_t x1, uint32_t x2, uint32_t x3);
/* (x, y) added scalar_high 2^64 + scalar_low times to zero. Refuses 1. */
tari_secure_point_reply tari_secure_point_mul(
    uint32_t x0, uint32_t x1, uint32_t x2, uint32_t x3, uint32_t y0, uint32_t y1, uint32_t y2, uint32_t y3,
    uint64_t scalar_high, uint64_t scalar_low);
/* (x, y), or for a negative off (x, -y), added |off| times to zero; not for off = -2^63. Refuses 11, 1. */
tari_secure_point_reply tari_secure_point_mul_signed(
    uint32_t x0, uint32_t x1, uint32_t x2, uint32_t x3, uint32_t y0, uint32_t y1, uint32_t y2, uint32_t y3,
    int64_t off);
/* (x, y) doubled n times. All n doublings are made, up to 2^32 - 1: the time grows with n. Refuses 1. */
tari_secure_point_reply tari_secure_point_repeated_double(
    uint32_t x0, uint32_t x1, uint32_t x2, uint32_t x3, uint32_t y0, uint32_t y1, uint32_t y2, uint32_t y3, uint32_t n);
/* (x, -y). Refuses 1. */
tari_secure_point_reply tari_secure_point_conjugate(
    uint32_t x0, uint32_t x1, uint32_t x2, uint32_t x3, uint32_t y0, uint32_t y1, uint32_t y2, uint32_t y3);
/* (-x, -y). Refuses 1. */
tari_secure_point_reply tari_secure_point_antipode(
    uint32_t x0, uint32_t x1, uint32_t x2, uint32_t x3, uint32_t y0, uint32_t y1, uint32_t y2, uint32_t y3);
/* The complex conjugates of x and y. Refuses 1. */
tari_secure_point_reply tari_secure_point_complex_conjugate(
    uint32_t x0, uint32_t x1, uint32_t x2, uint32_t x3, uint32_t y0, uint32_t y1, uint32_t y2, uint32_t y3);
/* The point x = (1, 0, 478637715, 513582971), y = (992285211, 649143431, 740191619, 1186584352), which is stwo's
 * SECURE_FIELD_CIRCLE_GEN, added index_high 2^64 + index_low times to zero, less than P^4 - 1 times. Refuses 11. */
tari_secure_point_reply tari_secure_point_get_point(uint64_t index_high, uint64_t index_low);

/* ---- Point indices ----
 *
 * Numbers below 2^31. The point of index k is G = (2, 1268011823) added k times to zero; no other index has it. */

/* The index 0. Never refuses. */
tari_index_reply tari_index_zero(void);
/* The index 1, of G. Never refuses. */
tari_index_reply tari_index_generator(void);
/* index modulo 2^31, which is the index itself. Refuses 4. */
tari_index_reply tari_index_reduce(uint64_t index);
/* 2^(31 - log_size) modulo 2^31, the index of a generator of the subgroup of 2^log_size points; 0 for log size 0.
 * Refuses 6. */
tari_index_reply tari_index_subgroup_gen(uint32_t log_size);
/* G added index times to zero. Refuses 4. */
tari_point_reply tari_index_to_point(uint64_t index);
/* Half of an even index. Refuses 4, 5. */
tari_index_reply tari_index_half(uint64_t index);
/* a + b modulo 2^31. Refuses 4. */
tari_index_reply tari_index_add(uint64_t a, uint64_t b);
/* a - b modulo 2^31. Refuses 4. */
tari_index_reply tari_index_sub(uint64_t a, uint64_t b);
/* -index modulo 2^31. Refuses 4. */
tari_index_reply tari_index_neg(uint64_t index);
/* index times count, modulo 2^31, for any count. Refuses 4. */
tari_index_reply tari_index_mul(uint64_t index, uint64_t count);

/* ---- Column orders ----
 *
 * Positions, and columns of any u32 words, which needn't be below P. */

/* The log_size low bits of i in reverse, the others dropped; i itself for log size 0. At most 64 bits. Refuses 6. */
tari_u64_reply tari_bit_reverse_index(uint64_t i, uint32_t log_size);
/* Word k of v becomes the word at the reverse of k, for 2^n words. Refuses 8. */
tari_write_reply tari_bit_reverse(uint32_t *v, uint64_t v_len);
/* The position of the element of the canonic circle domain of log size eval_log_size whose index is that of position
 * i's element plus offset times 2^(31 - domain_log_size), modulo 2^31. Both positions are in bit-reversed order, and
 * of i only the eval_log_size low bits count. offset is from -2^31 to 2^31. Refuses 6, 11. */
tari_u64_reply tari_offset_bit_reversed_circle_domain_index(
    uint64_t i, uint32_t domain_log_size, uint32_t eval_log_size, int64_t offset);
/* The position of the element of the canonic circle domain of log size eval_log_size whose index is that of position
 * i's element minus 2^(31 - domain_log_size), modulo 2^31. Both positions are in bit-reversed order, and of i only
 * the eval_log_size low bits count. Refuses 6. */
tari_u64_reply tari_previous_bit_reversed_circle_domain_index(
    uint64_t i, uint32_t domain_log_size, uint32_t eval_log_size);
/* Where element k = coset_index of a coset of 2^n points, n = log_domain_size, stands in the circle domain: even k
 * at k / 2, odd k at (2^(n + 1) - k) / 2 rounded down. Refuses 6, 4. */
tari_u64_reply tari_coset_index_to_circle_domain_index(uint64_t coset_index, uint32_t log_domain_size);
/* Word k of v becomes the word at the reverse of the place that the order map gives k, for 2^n words. Refuses 8. */
tari_write_reply tari_bit_reverse_coset_to_circle_domain_order(uint32_t *v, uint64_t v_len);
/* Copies the values from the order of a coset into that of the circle domain; an even number of words. Refuses 8. */
tari_write_reply tari_coset_order_to_circle_domain_order(
    const uint32_t *values, uint64_t values_len, uint32_t *dst, uint64_t dst_len);
/* Copies the values from the order of a circle domain into that of the coset; an even number of words. Refuses 8. */
tari_write_reply tari_circle_domain_order_to_coset_order(
    const uint32_t *values, uint64_t values_len, uint32_t *dst, uint64_t dst_len);

/* ---- Cosets ----
 *
 * A coset is passed and answered as seven numbers: the index and the point (x, y) of its first element, the index and
 * the point of the step between its elements, and the log size, 0 to 31, of its 2^log_size elements. Each point must be
 * that of its index. An iterator is the index to hand back next, the step and how many remain; the reply to its next
 * step has done 0, the index and the iterator after it, or done 1, index 0 and the iterator as it was. */

/* The 2^log_size points from initial_index on, with step subgroup_gen(log_size). Refuses 6, 4. */
tari_coset_reply tari_coset_new(uint64_t initial_index, uint32_t log_size);
/* The coset from index 0 on: the subgroup of 2^log_size points. Refuses 6. */
tari_coset_reply tari_coset_subgroup(uint32_t log_size);
/* The coset from subgroup_gen(log_size + 1) on, with step subgroup_gen(log_size), of log size 0 to 30. Refuses 6. */
tari_coset_reply tari_coset_odds(uint32_t log_size);
/* The coset from subgroup_gen(log_size + 2) on, with step subgroup_gen(log_size), of log size 0 to 29. Refuses 6. */
tari_coset_reply tari_coset_half_odds(uint32_t log_size);
/* 2^log_size. Refuses 6, 4, 1, 14. */
tari_u64_reply tari_coset_size(
    uint64_t initial_index, uint32_t initial_x, uint32_t initial_y, uint64_t step_index, uint32_t step_x,
    uint32_t step_y, uint32_t log_size);
/* The log size. Refuses 6, 4, 1, 14. */
tari_u32_reply tari_coset_log_size(
    uint64_t initial_index, uint32_t initial_x, uint32_t initial_y, uint64_t step_index, uint32_t step_x,
    uint32_t step_y, uint32_t log_size);
/* The iterator over the indices: from the initial index, by the step, as many as the size. Refuses 6, 4, 1, 14. */
tari_coset_iterator_reply tari_coset_iter_indices(
    uint64_t initial_index, uint32_t initial_x, uint32_t initial_y, uint64_t step_index, uint32_t step_x,
    uint32_t step_y, uint32_t log_size);
/* Both indices doubled modulo 2^31, both points doubled, the log size one less. Refuses 6, 4, 1, 14, 7. */
tari_coset_reply tari_coset_double(
    uint64_t initial_index, uint32_t initial_x, uint32_t initial_y, uint64_t step_index, uint32_t step_x,
    uint32_t step_y, uint32_t log_size);
/* The coset doubled n_doubles times, no more than its log size. Refuses 6, 4, 1, 14, 7. */
tari_coset_reply tari_coset_repeated_double(
    uint64_t initial_index, uint32_t initial_x, uint32_t initial_y, uint64_t step_index, uint32_t step_x,
    uint32_t step_y, uint32_t log_size, uint32_t n_doubles);
/* 1 where the first coset equals the other, doubled as often as their log sizes differ, in every field, else 0. The
 * first is checked wholly before the other. Refuses 6, 4, 1, 14. */
tari_bool_reply tari_coset_is_doubling_of(
    uint64_t initial_index, uint32_t initial_x, uint32_t initial_y, uint64_t step_index, uint32_t step_x,
    uint32_t step_y, uint32_t log_size, uint64_t other_initial_index, uint32_t other_initial_x,
    uint32_t other_initial_y, uint64_t other_step_index, uint32_t other_step_x, uint32_t other_step_y,
    uint32_t other_log_size);
/* The initial point of the record. Refuses 6, 4, 1, 14. */
tari_point_reply tari_coset_initial(
    uint64_t initial_index, uint32_t initial_x, uint32_t initial_y, uint64_t step_index, uint32_t step_x,
    uint32_t step_y, uint32_t log_size);
/* initial_index + i times step_index, modulo 2^31, for any i. Refuses 6, 4, 1, 14. */
tari_index_reply tari_coset_index_at(
    uint64_t initial_index, uint32_t initial_x, uint32_t initial_y, uint64_t step_index, uint32_t step_x,
    uint32_t step_y, uint32_t log_size, uint64_t i);
/* The point of the index initial_index + i times step_index, modulo 2^31, for any i. Refuses 6, 4, 1, 14. */
tari_point_reply tari_coset_at(
    uint64_t initial_index, uint32_t initial_x, uint32_t initial_y, uint64_t step_index, uint32_t step_x,
    uint32_t step_y, uint32_t log_size, uint64_t i);
/* The coset moved by the index shift_size: its initial index and the point of it. The step stays. shift_size is checked
 * last. Refuses 6, 4, 1, 14, 4. */
tari_coset_reply tari_coset_shift(
    uint64_t initial_index, uint32_t initial_x, uint32_t initial_y, uint64_t step_index, uint32_t step_x,
    uint32_t step_y, uint32_t log_size, uint64_t shift_size);
/* The coset of the negative indices, with their points. Refuses 6, 4, 1, 14. */
tari_coset_reply tari_coset_conjugate(
    uint64_t initial_index, uint32_t initial_x, uint32_t initial_y, uint64_t step_index, uint32_t step_x,
    uint32_t step_y, uint32_t log_size);
/* The next index and the iterator after it, or done. The indices are checked also where none remain. Refuses 4. */
tari_coset_step_reply tari_coset_iterator_next(uint64_t cur, uint64_t step, uint64_t remaining);

/* ---- Canonic cosets ----
 *
 * Each as its coset, of log size 1 to 30. */

/* The canonic coset of log size 1 to 30: odds(log_size). Refuses 6. */
tari_coset_reply tari_canonic_coset_try_new(uint32_t log_size);
/* The canonic coset of log size 1 to 30, odds(log_size); it refuses as try_new does. Refuses 6. */
tari_coset_reply tari_canonic_coset_new(uint32_t log_size);
/* The record's coset. Refuses 6, 4, 1, 14. */
tari_coset_reply tari_canonic_coset_coset(
    uint64_t initial_index, uint32_t initial_x, uint32_t initial_y, uint64_t step_index, uint32_t step_x,
    uint32_t step_y, uint32_t log_size);
/* half_odds(log_size - 1), by the log size alone. Refuses 6, 4, 1, 14. */
tari_coset_reply tari_canonic_coset_half_coset(
    uint64_t initial_index, uint32_t initial_x, uint32_t initial_y, uint64_t step_index, uint32_t step_x,
    uint32_t step_y, uint32_t log_size);
/* The canonic circle domain of log_size, as its half coset half_odds(log_size - 1). Refuses 6, 4, 1, 14. */
tari_coset_reply tari_canonic_coset_circle_domain(
    uint64_t initial_index, uint32_t initial_x, uint32_t initial_y, uint64_t step_index, uint32_t step_x,
    uint32_t step_y, uint32_t log_size);
/* The log size. Refuses 6, 4, 1, 14. */
tari_u32_reply tari_canonic_coset_log_size(
    uint64_t initial_index, uint32_t initial_x, uint32_t initial_y, uint64_t step_index, uint32_t step_x,
    uint32_t step_y, uint32_t log_size);
/* 2^log_size. Refuses 6, 4, 1, 14. */
tari_u64_reply tari_canonic_coset_size(
    uint64_t initial_index, uint32_t initial_x, uint32_t initial_y, uint64_t step_index, uint32_t step_x,
    uint32_t step_y, uint32_t log_size);
/* The initial index of the record. Refuses 6, 4, 1, 14. */
tari_index_reply tari_canonic_coset_initial_index(
    uint64_t initial_index, uint32_t initial_x, uint32_t initial_y, uint64_t step_index, uint32_t step_x,
    uint32_t step_y, uint32_t log_size);
/* The step index of the record. Refuses 6, 4, 1, 14. */
tari_index_reply tari_canonic_coset_step_size(
    uint64_t initial_index, uint32_t initial_x, uint32_t initial_y, uint64_t step_index, uint32_t step_x,
    uint32_t step_y, uint32_t log_size);
/* The step point of the record. Refuses 6, 4, 1, 14. */
tari_point_reply tari_canonic_coset_step(
    uint64_t initial_index, uint32_t initial_x, uint32_t initial_y, uint64_t step_index, uint32_t step_x,
    uint32_t step_y, uint32_t log_size);
/* initial_index + i times step_index, modulo 2^31, for any i. Refuses 6, 4, 1, 14. */
tari_index_reply tari_canonic_coset_index_at(
    uint64_t initial_index, uint32_t initial_x, uint32_t initial_y, uint64_t step_index, uint32_t step_x,
    uint32_t step_y, uint32_t log_size, uint64_t i);
/* The point of the index initial_index + i times step_index, modulo 2^31, for any i. Refuses 6, 4, 1, 14. */
tari_point_reply tari_canonic_coset_at(
    uint64_t initial_index, uint32_t initial_x, uint32_t initial_y, uint64_t step_index, uint32_t step_x,
    uint32_t step_y, uint32_t log_size, uint64_t i);

/* ---- Circle domains ----
 *
 * Each as its half coset, of log size 0 to 31: its elements and then their conjugates, 2^(log_size + 1) in all. The
 * iterator is the half coset's and then the conjugate's. */

/* The domain of a half coset: the record itself. Refuses 6, 4, 1, 14. */
tari_coset_reply tari_circle_domain_new(
    uint64_t initial_index, uint32_t initial_x, uint32_t initial_y, uint64_t step_index, uint32_t step_x,
    uint32_t step_y, uint32_t log_size);
/* The iterator over the indices: the half coset's, then its conjugate's. Refuses 6, 4, 1, 14. */
tari_circle_domain_index_iterator_reply tari_circle_domain_iter_indices(
    uint64_t initial_index, uint32_t initial_x, uint32_t initial_y, uint64_t step_index, uint32_t step_x,
    uint32_t step_y, uint32_t log_size);
/* 2^(log_size + 1). Refuses 6, 4, 1, 14. */
tari_u64_reply tari_circle_domain_size(
    uint64_t initial_index, uint32_t initial_x, uint32_t initial_y, uint64_t step_index, uint32_t step_x,
    uint32_t step_y, uint32_t log_size);
/* log_size + 1. Refuses 6, 4, 1, 14. */
tari_u32_reply tari_circle_domain_log_size(
    uint64_t initial_index, uint32_t initial_x, uint32_t initial_y, uint64_t step_index, uint32_t step_x,
    uint32_t step_y, uint32_t log_size);
/* The point of the domain's index at i, for any i. Refuses 6, 4, 1, 14. */
tari_point_reply tari_circle_domain_at(
    uint64_t initial_index, uint32_t initial_x, uint32_t initial_y, uint64_t step_index, uint32_t step_x,
    uint32_t step_y, uint32_t log_size, uint64_t i);
/* The half coset's index at i, from its size s on the negative of its index at i - s, for any i.
 * Refuses 6, 4, 1, 14. */
tari_index_reply tari_circle_domain_index_at(
    uint64_t initial_index, uint32_t initial_x, uint32_t initial_y, uint64_t step_index, uint32_t step_x,
    uint32_t step_y, uint32_t log_size, uint64_t i);
/* 1 where 4 times the initial index, modulo 2^31, equals the step index, else 0. Where the step index is 0, 1 only for
 * the initial indices 2^29 and 3 times 2^29, whatever the log size. So 1 for every canonic domain.
 * Refuses 6, 4, 1, 14. */
tari_bool_reply tari_circle_domain_is_canonic(
    uint64_t initial_index, uint32_t initial_x, uint32_t initial_y, uint64_t step_index, uint32_t step_x,
    uint32_t step_y, uint32_t log_size);
/* Answers with the domain of coset_new(initial_index, log_size - log_parts), the first of 2^log_parts parts. Word i
 * of shifts becomes i times step_index modulo 2^31, for i below 2^log_parts: the shift that gives part i. Words past
 * them stay. Refuses 6, 4, 1, 14, 7, 8. */
tari_coset_reply tari_circle_domain_split(
    uint64_t initial_index, uint32_t initial_x, uint32_t initial_y, uint64_t step_index, uint32_t step_x,
    uint32_t step_y, uint32_t log_size, uint32_t log_parts, uint32_t *shifts, uint64_t shifts_len);
/* The domain of the half coset moved by the index shift, which is checked last. Refuses 6, 4, 1, 14, 4. */
tari_coset_reply tari_circle_domain_shift(
    uint64_t initial_index, uint32_t initial_x, uint32_t initial_y, uint64_t step_index, uint32_t step_x,
    uint32_t step_y, uint32_t log_size, uint64_t shift);
/* The next index and the iterator after it, first of the half coset's, then of the conjugate's, or done. All four
 * indices are checked, also where none remain. Refuses 4. */
tari_circle_domain_step_reply tari_circle_domain_index_iterator_next(
    uint64_t first_cur, uint64_t first_step, uint64_t first_remaining, uint64_t second_cur, uint64_t second_step,
    uint64_t second_remaining);

/* ---- The transform ----
 *
 * Of a column of 2^log_size words, log size 1 to 30, in place. Position p of a value column holds the value at the
 * element bit_reverse_index(p, log_size) of the canonic circle domain; position j of a coefficient column holds
 * coefficient j. Scratch has at least 2^log_size words. Its first 2^log_size words end as anything, the others stay;
 * what they held isn't looked at. column and scratch must not overlap. */

/* A column of coefficients becomes their values. Refuses 6, 8, 1. */
tari_write_reply tari_evaluate(
    uint32_t log_size, uint32_t *column, uint64_t column_len, uint32_t *scratch, uint64_t scratch_len);
/* A column of values becomes the coefficients that give them. Refuses 6, 8, 1. */
tari_write_reply tari_interpolate(
    uint32_t log_size, uint32_t *column, uint64_t column_len, uint32_t *scratch, uint64_t scratch_len);

#ifdef __cplusplus
}
#endif

#endif
