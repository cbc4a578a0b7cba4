/* zirve-blas: dense BLAS kernels, proved. Link with libzirve_blas.a (pkg-config zirve-blas).
 *
 * Answers. Every function answers ZB_DONE or the lowest refusal that is met (enum zb_answer); those for cards have an
 * order of their own, see Cards. A call refused with 1 to 4, 6 or 7 changes nothing. After 5, trsv and trsm Left have
 * solved the first column's rows that come before the first zero pivot in solving order, and touched nothing else; trsm
 * Right has multiplied all of B by alpha and solved the columns before that pivot.
 *
 * Flags are numbers (enums zb_trans, zb_uplo, zb_diag, zb_side; a variable for one is a uint8_t); one out of its range
 * is refused with 3. syrk and syr2k take ZB_CONJ_TRANS as ZB_TRANS and conjugate nothing; herk and her2k take ZB_TRANS
 * as ZB_CONJ_TRANS. On reals the two are the same.
 *
 * Views. A matrix or a vector is a slab and a view of it, in seven arguments: the pointer, the slab's length, then
 * start, rows, columns, row stride and column stride. Element (r, c) is the slab's element
 * start + r * row stride + c * column stride. Strides may be negative; start is where element (0, 0) is. A vector has
 * at most one row or at most one column: it is n by 1 or 1 by n. A view of 0 rows or 0 columns has no elements, and any
 * start and strides. The last slab of a call is its target; no other slab of the call may share memory with it.
 *
 * Lengths are counted in numbers, double or float, and must be true: they are all that a function knows of the memory
 * behind a pointer. A slab of length 0 may have the pointer NULL, and so may a card's buffer.
 *
 * Complex. An element is two numbers, its real and its imaginary part: a slab of n elements has the length 2 n. start
 * and the strides still count elements. The last number of an odd length belongs to no element, and stays. A scalar is
 * passed as two numbers. double complex * and std::complex<double> * may be cast to double *.
 *
 * Cards. A card carries a matrix, real or complex, in blocks of 512 bytes; every number of two or eight bytes stands
 * low byte first. Block 0 has the letters ARMM in bytes 0 to 3, the rows in bytes 4 and 5, the columns in 6 and 7, and
 * the kind in byte 8 (enum zb_card_kind). Data block k, from 1, has 63 numbers by their bits in bytes 0 to 503 and k in
 * bytes 504 and 505. The numbers run by rows, a complex element as its real and its imaginary part. All other bytes are
 * zero, those past the last number too. Bytes 510 and 511 of each block are the sum of its bytes 0 to 509 modulo
 * 65,536. There are as many data blocks as the numbers need, none where there are no rows or no columns, and never more
 * than k can count: ZB_CARD_LENGTH.
 *
 * The matrix has no view: it fills the front of its slab by rows. The slab past it, and the buffer past a written card,
 * stay as they are. The length of a slab counts numbers, for a complex matrix too, the length of a card bytes.
 *
 * zb_card_read judges 6 over all blocks, then 7, which has no limit on the shape, then 1 on the shape that block 0
 * names, then 2. zb_dcard_write and zb_zcard_write judge 1, then 2. What is handed back (kind, rows and cols; the
 * card's length in bytes) is written on ZB_DONE alone; its pointers may not be NULL. Neither it nor what is written may
 * share memory with another argument. Bits stay as they are, save those of a NaN: one that is read is a NaN of any
 * bits, one that is written has the bits 7ff8000000000000. So a matrix without NaN has a single card.
 *
 * From CBLAS. The macros below write the seven arguments: a matrix with lda by ZB_BY_ROWS (row-major) or ZB_BY_COLS
 * (column-major), with the rows and columns that are stored, not those of op(A); a vector with incx by ZB_VECTOR. With
 * a negative incx a vector begins at the far end, here as there: its view starts at (count - 1) * -incx. What CBLAS is
 * not told is n, the slab's length. docs/DIFFERENCES.md, installed in share/doc/zirve-blas, has the calls on which
 * Netlib's BLAS gives other numbers.
 *
 * The floating-point environment, which no function looks at or changes, is to be the one that a program starts with:
 * rounding to nearest; flush-to-zero and denormals-are-zero off, so no linking with -ffast-math or -Ofast, which switch
 * them on (a pivot of 1e-310 is then zero, answer 5); floating-point exceptions masked, so no feenableexcept (0 times
 * infinity would then end the program). The exception flags after a call say nothing: lanes of packed instructions that
 * no element uses may set them.
 *
 * Nothing is kept from call to call: threads may call at the same time, each with a target of its own.
 */
#ifndef ZIRVE_BLAS_H
#define ZIRVE_BLAS_H

#include <stddef.h>
#include <stdint.h>

#define ZB_VERSION_MAJOR 0
#define ZB_VERSION_MINOR 1
#define ZB_VERSION_PATCH 4
#define ZB_VERSION "0.1.4"

enum zb_trans { ZB_NO_TRANS = 0, ZB_TRANS = 1, ZB_CONJ_TRANS = 2 };
enum zb_uplo { ZB_UPPER = 0, ZB_LOWER = 1 };
enum zb_diag { ZB_NON_UNIT = 0, ZB_UNIT = 1 };
enum zb_side { ZB_LEFT = 0, ZB_RIGHT = 1 };
enum zb_card_kind { ZB_CARD_REAL = 0, ZB_CARD_COMPLEX = 1 };

enum zb_answer {
    ZB_DONE = 0,
    ZB_TOO_LARGE = 1,      /* a view, or the matrix of a card, has more than 64 rows or columns */
    ZB_OUT_OF_BOUNDS = 2,  /* some element of a view is outside its slab; a card's buffer or its slab is too short */
    ZB_SHAPE_MISMATCH = 3, /* the shapes do not go together, a square matrix is not square, a vector is no vector, or a
                            * flag is out of its range */
    ZB_OVERLAP = 4,        /* two elements of the target view share a place */
    ZB_SINGULAR = 5,       /* trsv and trsm: diag is ZB_NON_UNIT, the target not empty, some diagonal element zero */
    ZB_TORN_CARD = 6,      /* zb_card_read: a block's sum fails, or the length is no whole number of blocks */
    ZB_WRONG_CARD = 7      /* zb_card_read: any other departure from the form of a card; no bytes at all are one */
};

/* The seven arguments of a view of the n numbers at p: a matrix by rows or by columns, which stand ld elements apart,
 * and a vector of count elements, which stand inc apart. count and inc are evaluated more than once. */
#define ZB_BY_ROWS(p, n, rows, cols, ld) \
    (p), ZB_AS(size_t, n), 0, ZB_AS(uint64_t, rows), ZB_AS(uint64_t, cols), ZB_AS(int64_t, ld), 1
#define ZB_BY_COLS(p, n, rows, cols, ld) \
    (p), ZB_AS(size_t, n), 0, ZB_AS(uint64_t, rows), ZB_AS(uint64_t, cols), 1, ZB_AS(int64_t, ld)
#define ZB_VECTOR(p, n, count, inc) \
    (p), ZB_AS(size_t, n), ZB_START(count, inc), ZB_AS(uint64_t, count), 1, ZB_AS(int64_t, inc), 1

/* The same of a whole array x, not of a pointer: its type tells the length. A macro for pointer and length together
 * could not stand inside those above in C90 and C++98; these work from C90 to C++20. */
#define ZB_ARRAY_BY_ROWS(x, rows, cols, ld) ZB_BY_ROWS(x, ZB_LENGTH(x), rows, cols, ld)
#define ZB_ARRAY_BY_COLS(x, rows, cols, ld) ZB_BY_COLS(x, ZB_LENGTH(x), rows, cols, ld)
#define ZB_ARRAY_VECTOR(x, count, inc) ZB_VECTOR(x, ZB_LENGTH(x), count, inc)
#define ZB_LENGTH(x) (sizeof(x) / sizeof *(x))

/* Where a vector starts: its first element is the last in memory where inc is negative. */
#define ZB_START(count, inc) \
    (ZB_AS(int64_t, inc) < 0 && (count) != 0 ? (ZB_AS(uint64_t, count) - 1) * (0 - ZB_AS(uint64_t, inc)) : 0)

/* The bytes of a card with so many numbers: rows * cols of them, 2 * rows * cols for a complex matrix. A constant of
 * constants, so it can be an array's size; the longest card that is written has ZB_CARD_LENGTH(2 * 64 * 64). */
#define ZB_CARD_LENGTH(numbers) (512 * (1 + (ZB_AS(size_t, numbers) + 62) / 63))

#ifdef __cplusplus
#define ZB_AS(type, x) static_cast<type>(x)
extern "C" {
#else
#define ZB_AS(type, x) ((type)(x))
#endif

/* y ← alpha op(A) x + beta y */
uint8_t zb_dgemv(
    uint8_t trans,
    double alpha,
    const double *a, size_t a_len, uint64_t a_start, uint64_t a_rows, uint64_t a_cols, int64_t a_rs, int64_t a_cs,
    const double *x, size_t x_len, uint64_t x_start, uint64_t x_rows, uint64_t x_cols, int64_t x_rs, int64_t x_cs,
    double beta,
    double *y, size_t y_len, uint64_t y_start, uint64_t y_rows, uint64_t y_cols, int64_t y_rs, int64_t y_cs);
uint8_t zb_sgemv(
    uint8_t trans,
    float alpha,
    const float *a, size_t a_len, uint64_t a_start, uint64_t a_rows, uint64_t a_cols, int64_t a_rs, int64_t a_cs,
    const float *x, size_t x_len, uint64_t x_start, uint64_t x_rows, uint64_t x_cols, int64_t x_rs, int64_t x_cs,
    float beta,
    float *y, size_t y_len, uint64_t y_start, uint64_t y_rows, uint64_t y_cols, int64_t y_rs, int64_t y_cs);
uint8_t zb_zgemv(
    uint8_t trans,
    double alpha_re, double alpha_im,
    const double *a, size_t a_len, uint64_t a_start, uint64_t a_rows, uint64_t a_cols, int64_t a_rs, int64_t a_cs,
    const double *x, size_t x_len, uint64_t x_start, uint64_t x_rows, uint64_t x_cols, int64_t x_rs, int64_t x_cs,
    double beta_re, double beta_im,
    double *y, size_t y_len, uint64_t y_start, uint64_t y_rows, uint64_t y_cols, int64_t y_rs, int64_t y_cs);

/* y ← alpha A x + beta y, A Hermitian */
uint8_t zb_dhemv(
    uint8_t uplo,
    double alpha,
    const double *a, size_t a_len, uint64_t a_start, uint64_t a_rows, uint64_t a_cols, int64_t a_rs, int64_t a_cs,
    const double *x, size_t x_len, uint64_t x_start, uint64_t x_rows, uint64_t x_cols, int64_t x_rs, int64_t x_cs,
    double beta,
    double *y, size_t y_len, uint64_t y_start, uint64_t y_rows, uint64_t y_cols, int64_t y_rs, int64_t y_cs);
uint8_t zb_shemv(
    uint8_t uplo,
    float alpha,
    const float *a, size_t a_len, uint64_t a_start, uint64_t a_rows, uint64_t a_cols, int64_t a_rs, int64_t a_cs,
    const float *x, size_t x_len, uint64_t x_start, uint64_t x_rows, uint64_t x_cols, int64_t x_rs, int64_t x_cs,
    float beta,
    float *y, size_t y_len, uint64_t y_start, uint64_t y_rows, uint64_t y_cols, int64_t y_rs, int64_t y_cs);
uint8_t zb_zhemv(
    uint8_t uplo,
    double alpha_re, double alpha_im,
    const double *a, size_t a_len, uint64_t a_start, uint64_t a_rows, uint64_t a_cols, int64_t a_rs, int64_t a_cs,
    const double *x, size_t x_len, uint64_t x_start, uint64_t x_rows, uint64_t x_cols, int64_t x_rs, int64_t x_cs,
    double beta_re, double beta_im,
    double *y, size_t y_len, uint64_t y_start, uint64_t y_rows, uint64_t y_cols, int64_t y_rs, int64_t y_cs);

/* C ← alpha op(A) op(B) + beta C */
uint8_t zb_dgemm(
    uint8_t ta,
    uint8_t tb,
    double alpha,
    const double *a, size_t a_len, uint64_t a_start, uint64_t a_rows, uint64_t a_cols, int64_t a_rs, int64_t a_cs,
    const double *b, size_t b_len, uint64_t b_start, uint64_t b_rows, uint64_t b_cols, int64_t b_rs, int64_t b_cs,
    double beta,
    double *c, size_t c_len, uint64_t c_start, uint64_t c_rows, uint64_t c_cols, int64_t c_rs, int64_t c_cs);
uint8_t zb_sgemm(
    uint8_t ta,
    uint8_t tb,
    float alpha,
    const float *a, size_t a_len, uint64_t a_start, uint64_t a_rows, uint64_t a_cols, int64_t a_rs, int64_t a_cs,
    const float *b, size_t b_len, uint64_t b_start, uint64_t b_rows, uint64_t b_cols, int64_t b_rs, int64_t b_cs,
    float beta,
    float *c, size_t c_len, uint64_t c_start, uint64_t c_rows, uint64_t c_cols, int64_t c_rs, int64_t c_cs);
uint8_t zb_zgemm(
    uint8_t ta,
    uint8_t tb,
    double alpha_re, double alpha_im,
    const double *a, size_t a_len, uint64_t a_start, uint64_t a_rows, uint64_t a_cols, int64_t a_rs, int64_t a_cs,
    const double *b, size_t b_len, uint64_t b_start, uint64_t b_rows, uint64_t b_cols, int64_t b_rs, int64_t b_cs,
    double beta_re, double beta_im,
    double *c, size_t c_len, uint64_t c_start, uint64_t c_rows, uint64_t c_cols, int64_t c_rs, int64_t c_cs);

/* C ← alpha A B + beta C or alpha B A + beta C, A symmetric */
uint8_t zb_dsymm(
    uint8_t side,
    uint8_t uplo,
    double alpha,
    const double *a, size_t a_len, uint64_t a_start, uint64_t a_rows, uint64_t a_cols, int64_t a_rs, int64_t a_cs,
    const double *b, size_t b_len, uint64_t b_start, uint64_t b_rows, uint64_t b_cols, int64_t b_rs, int64_t b_cs,
    double beta,
    double *c, size_t c_len, uint64_t c_start, uint64_t c_rows, uint64_t c_cols, int64_t c_rs, int64_t c_cs);
uint8_t zb_ssymm(
    uint8_t side,
    uint8_t uplo,
    float alpha,
    const float *a, size_t a_len, uint64_t a_start, uint64_t a_rows, uint64_t a_cols, int64_t a_rs, int64_t a_cs,
    const float *b, size_t b_len, uint64_t b_start, uint64_t b_rows, uint64_t b_cols, int64_t b_rs, int64_t b_cs,
    float beta,
    float *c, size_t c_len, uint64_t c_start, uint64_t c_rows, uint64_t c_cols, int64_t c_rs, int64_t c_cs);
uint8_t zb_zsymm(
    uint8_t side,
    uint8_t uplo,
    double alpha_re, double alpha_im,
    const double *a, size_t a_len, uint64_t a_start, uint64_t a_rows, uint64_t a_cols, int64_t a_rs, int64_t a_cs,
    const double *b, size_t b_len, uint64_t b_start, uint64_t b_rows, uint64_t b_cols, int64_t b_rs, int64_t b_cs,
    double beta_re, double beta_im,
    double *c, size_t c_len, uint64_t c_start, uint64_t c_rows, uint64_t c_cols, int64_t c_rs, int64_t c_cs);

/* C ← alpha A B + beta C or alpha B A + beta C, A Hermitian */
uint8_t zb_dhemm(
    uint8_t side,
    uint8_t uplo,
    double alpha,
    const double *a, size_t a_len, uint64_t a_start, uint64_t a_rows, uint64_t a_cols, int64_t a_rs, int64_t a_cs,
    const double *b, size_t b_len, uint64_t b_start, uint64_t b_rows, uint64_t b_cols, int64_t b_rs, int64_t b_cs,
    double beta,
    double *c, size_t c_len, uint64_t c_start, uint64_t c_rows, uint64_t c_cols, int64_t c_rs, int64_t c_cs);
uint8_t zb_shemm(
    uint8_t side,
    uint8_t uplo,
    float alpha,
    const float *a, size_t a_len, uint64_t a_start, uint64_t a_rows, uint64_t a_cols, int64_t a_rs, int64_t a_cs,
    const float *b, size_t b_len, uint64_t b_start, uint64_t b_rows, uint64_t b_cols, int64_t b_rs, int64_t b_cs,
    float beta,
    float *c, size_t c_len, uint64_t c_start, uint64_t c_rows, uint64_t c_cols, int64_t c_rs, int64_t c_cs);
uint8_t zb_zhemm(
    uint8_t side,
    uint8_t uplo,
    double alpha_re, double alpha_im,
    const double *a, size_t a_len, uint64_t a_start, uint64_t a_rows, uint64_t a_cols, int64_t a_rs, int64_t a_cs,
    const double *b, size_t b_len, uint64_t b_start, uint64_t b_rows, uint64_t b_cols, int64_t b_rs, int64_t b_cs,
    double beta_re, double beta_im,
    double *c, size_t c_len, uint64_t c_start, uint64_t c_rows, uint64_t c_cols, int64_t c_rs, int64_t c_cs);

/* C ← alpha A Aᵀ + beta C or alpha Aᵀ A + beta C, in the named triangle */
uint8_t zb_dsyrk(
    uint8_t uplo,
    uint8_t trans,
    double alpha,
    const double *a, size_t a_len, uint64_t a_start, uint64_t a_rows, uint64_t a_cols, int64_t a_rs, int64_t a_cs,
    double beta,
    double *c, size_t c_len, uint64_t c_start, uint64_t c_rows, uint64_t c_cols, int64_t c_rs, int64_t c_cs);
uint8_t zb_ssyrk(
    uint8_t uplo,
    uint8_t trans,
    float alpha,
    const float *a, size_t a_len, uint64_t a_start, uint64_t a_rows, uint64_t a_cols, int64_t a_rs, int64_t a_cs,
    float beta,
    float *c, size_t c_len, uint64_t c_start, uint64_t c_rows, uint64_t c_cols, int64_t c_rs, int64_t c_cs);
uint8_t zb_zsyrk(
    uint8_t uplo,
    uint8_t trans,
    double alpha_re, double alpha_im,
    const double *a, size_t a_len, uint64_t a_start, uint64_t a_rows, uint64_t a_cols, int64_t a_rs, int64_t a_cs,
    double beta_re, double beta_im,
    double *c, size_t c_len, uint64_t c_start, uint64_t c_rows, uint64_t c_cols, int64_t c_rs, int64_t c_cs);

/* C ← alpha A Aᴴ + beta C or alpha Aᴴ A + beta C, in the named triangle, alpha and beta real */
uint8_t zb_dherk(
    uint8_t uplo,
    uint8_t trans,
    double alpha,
    const double *a, size_t a_len, uint64_t a_start, uint64_t a_rows, uint64_t a_cols, int64_t a_rs, int64_t a_cs,
    double beta,
    double *c, size_t c_len, uint64_t c_start, uint64_t c_rows, uint64_t c_cols, int64_t c_rs, int64_t c_cs);
uint8_t zb_sherk(
    uint8_t uplo,
    uint8_t trans,
    float alpha,
    const float *a, size_t a_len, uint64_t a_start, uint64_t a_rows, uint64_t a_cols, int64_t a_rs, int64_t a_cs,
    float beta,
    float *c, size_t c_len, uint64_t c_start, uint64_t c_rows, uint64_t c_cols, int64_t c_rs, int64_t c_cs);
uint8_t zb_zherk(
    uint8_t uplo,
    uint8_t trans,
    double alpha,
    const double *a, size_t a_len, uint64_t a_start, uint64_t a_rows, uint64_t a_cols, int64_t a_rs, int64_t a_cs,
    double beta,
    double *c, size_t c_len, uint64_t c_start, uint64_t c_rows, uint64_t c_cols, int64_t c_rs, int64_t c_cs);

/* A ← A + alpha x xᴴ, in the named triangle, alpha real */
uint8_t zb_dher(
    uint8_t uplo,
    double alpha,
    const double *x, size_t x_len, uint64_t x_start, uint64_t x_rows, uint64_t x_cols, int64_t x_rs, int64_t x_cs,
    double *a, size_t a_len, uint64_t a_start, uint64_t a_rows, uint64_t a_cols, int64_t a_rs, int64_t a_cs);
uint8_t zb_sher(
    uint8_t uplo,
    float alpha,
    const float *x, size_t x_len, uint64_t x_start, uint64_t x_rows, uint64_t x_cols, int64_t x_rs, int64_t x_cs,
    float *a, size_t a_len, uint64_t a_start, uint64_t a_rows, uint64_t a_cols, int64_t a_rs, int64_t a_cs);
uint8_t zb_zher(
    uint8_t uplo,
    double alpha,
    const double *x, size_t x_len, uint64_t x_start, uint64_t x_rows, uint64_t x_cols, int64_t x_rs, int64_t x_cs,
    double *a, size_t a_len, uint64_t a_start, uint64_t a_rows, uint64_t a_cols, int64_t a_rs, int64_t a_cs);

/* A ← A + alpha x yᴴ + conj(alpha) y xᴴ, in the named triangle */
uint8_t zb_dher2(
    uint8_t uplo,
    double alpha,
    const double *x, size_t x_len, uint64_t x_start, uint64_t x_rows, uint64_t x_cols, int64_t x_rs, int64_t x_cs,
    const double *y, size_t y_len, uint64_t y_start, uint64_t y_rows, uint64_t y_cols, int64_t y_rs, int64_t y_cs,
    double *a, size_t a_len, uint64_t a_start, uint64_t a_rows, uint64_t a_cols, int64_t a_rs, int64_t a_cs);
uint8_t zb_sher2(
    uint8_t uplo,
    float alpha,
    const float *x, size_t x_len, uint64_t x_start, uint64_t x_rows, uint64_t x_cols, int64_t x_rs, int64_t x_cs,
    const float *y, size_t y_len, uint64_t y_start, uint64_t y_rows, uint64_t y_cols, int64_t y_rs, int64_t y_cs,
    float *a, size_t a_len, uint64_t a_start, uint64_t a_rows, uint64_t a_cols, int64_t a_rs, int64_t a_cs);
uint8_t zb_zher2(
    uint8_t uplo,
    double alpha_re, double alpha_im,
    const double *x, size_t x_len, uint64_t x_start, uint64_t x_rows, uint64_t x_cols, int64_t x_rs, int64_t x_cs,
    const double *y, size_t y_len, uint64_t y_start, uint64_t y_rows, uint64_t y_cols, int64_t y_rs, int64_t y_cs,
    double *a, size_t a_len, uint64_t a_start, uint64_t a_rows, uint64_t a_cols, int64_t a_rs, int64_t a_cs);

/* C ← alpha (A Bᵀ + B Aᵀ) + beta C or alpha (Aᵀ B + Bᵀ A) + beta C, in the named triangle */
uint8_t zb_dsyr2k(
    uint8_t uplo,
    uint8_t trans,
    double alpha,
    const double *a, size_t a_len, uint64_t a_start, uint64_t a_rows, uint64_t a_cols, int64_t a_rs, int64_t a_cs,
    const double *b, size_t b_len, uint64_t b_start, uint64_t b_rows, uint64_t b_cols, int64_t b_rs, int64_t b_cs,
    double beta,
    double *c, size_t c_len, uint64_t c_start, uint64_t c_rows, uint64_t c_cols, int64_t c_rs, int64_t c_cs);
uint8_t zb_ssyr2k(
    uint8_t uplo,
    uint8_t trans,
    float alpha,
    const float *a, size_t a_len, uint64_t a_start, uint64_t a_rows, uint64_t a_cols, int64_t a_rs, int64_t a_cs,
    const float *b, size_t b_len, uint64_t b_start, uint64_t b_rows, uint64_t b_cols, int64_t b_rs, int64_t b_cs,
    float beta,
    float *c, size_t c_len, uint64_t c_start, uint64_t c_rows, uint64_t c_cols, int64_t c_rs, int64_t c_cs);
uint8_t zb_zsyr2k(
    uint8_t uplo,
    uint8_t trans,
    double alpha_re, double alpha_im,
    const double *a, size_t a_len, uint64_t a_start, uint64_t a_rows, uint64_t a_cols, int64_t a_rs, int64_t a_cs,
    const double *b, size_t b_len, uint64_t b_start, uint64_t b_rows, uint64_t b_cols, int64_t b_rs, int64_t b_cs,
    double beta_re, double beta_im,
    double *c, size_t c_len, uint64_t c_start, uint64_t c_rows, uint64_t c_cols, int64_t c_rs, int64_t c_cs);

/* C ← alpha A Bᴴ + conj(alpha) B Aᴴ + beta C or alpha Aᴴ B + conj(alpha) Bᴴ A + beta C, in the named triangle, beta
 * real */
uint8_t zb_dher2k(
    uint8_t uplo,
    uint8_t trans,
    double alpha,
    const double *a, size_t a_len, uint64_t a_start, uint64_t a_rows, uint64_t a_cols, int64_t a_rs, int64_t a_cs,
    const double *b, size_t b_len, uint64_t b_start, uint64_t b_rows, uint64_t b_cols, int64_t b_rs, int64_t b_cs,
    double beta,
    double *c, size_t c_len, uint64_t c_start, uint64_t c_rows, uint64_t c_cols, int64_t c_rs, int64_t c_cs);
uint8_t zb_sher2k(
    uint8_t uplo,
    uint8_t trans,
    float alpha,
    const float *a, size_t a_len, uint64_t a_start, uint64_t a_rows, uint64_t a_cols, int64_t a_rs, int64_t a_cs,
    const float *b, size_t b_len, uint64_t b_start, uint64_t b_rows, uint64_t b_cols, int64_t b_rs, int64_t b_cs,
    float beta,
    float *c, size_t c_len, uint64_t c_start, uint64_t c_rows, uint64_t c_cols, int64_t c_rs, int64_t c_cs);
uint8_t zb_zher2k(
    uint8_t uplo,
    uint8_t trans,
    double alpha_re, double alpha_im,
    const double *a, size_t a_len, uint64_t a_start, uint64_t a_rows, uint64_t a_cols, int64_t a_rs, int64_t a_cs,
    const double *b, size_t b_len, uint64_t b_start, uint64_t b_rows, uint64_t b_cols, int64_t b_rs, int64_t b_cs,
    double beta,
    double *c, size_t c_len, uint64_t c_start, uint64_t c_rows, uint64_t c_cols, int64_t c_rs, int64_t c_cs);

/* x ← op(A) x, A triangular */
uint8_t zb_dtrmv(
    uint8_t uplo,
    uint8_t trans,
    uint8_t diag,
    const double *a, size_t a_len, uint64_t a_start, uint64_t a_rows, uint64_t a_cols, int64_t a_rs, int64_t a_cs,
    double *x, size_t x_len, uint64_t x_start, uint64_t x_rows, uint64_t x_cols, int64_t x_rs, int64_t x_cs);
uint8_t zb_strmv(
    uint8_t uplo,
    uint8_t trans,
    uint8_t diag,
    const float *a, size_t a_len, uint64_t a_start, uint64_t a_rows, uint64_t a_cols, int64_t a_rs, int64_t a_cs,
    float *x, size_t x_len, uint64_t x_start, uint64_t x_rows, uint64_t x_cols, int64_t x_rs, int64_t x_cs);
uint8_t zb_ztrmv(
    uint8_t uplo,
    uint8_t trans,
    uint8_t diag,
    const double *a, size_t a_len, uint64_t a_start, uint64_t a_rows, uint64_t a_cols, int64_t a_rs, int64_t a_cs,
    double *x, size_t x_len, uint64_t x_start, uint64_t x_rows, uint64_t x_cols, int64_t x_rs, int64_t x_cs);

/* op(A) x = b solved, x holding b, A triangular */
uint8_t zb_dtrsv(
    uint8_t uplo,
    uint8_t trans,
    uint8_t diag,
    const double *a, size_t a_len, uint64_t a_start, uint64_t a_rows, uint64_t a_cols, int64_t a_rs, int64_t a_cs,
    double *x, size_t x_len, uint64_t x_start, uint64_t x_rows, uint64_t x_cols, int64_t x_rs, int64_t x_cs);
uint8_t zb_strsv(
    uint8_t uplo,
    uint8_t trans,
    uint8_t diag,
    const float *a, size_t a_len, uint64_t a_start, uint64_t a_rows, uint64_t a_cols, int64_t a_rs, int64_t a_cs,
    float *x, size_t x_len, uint64_t x_start, uint64_t x_rows, uint64_t x_cols, int64_t x_rs, int64_t x_cs);
uint8_t zb_ztrsv(
    uint8_t uplo,
    uint8_t trans,
    uint8_t diag,
    const double *a, size_t a_len, uint64_t a_start, uint64_t a_rows, uint64_t a_cols, int64_t a_rs, int64_t a_cs,
    double *x, size_t x_len, uint64_t x_start, uint64_t x_rows, uint64_t x_cols, int64_t x_rs, int64_t x_cs);

/* B ← alpha op(A) B or alpha B op(A), A triangular */
uint8_t zb_dtrmm(
    uint8_t side,
    uint8_t uplo,
    uint8_t trans,
    uint8_t diag,
    double alpha,
    const double *a, size_t a_len, uint64_t a_start, uint64_t a_rows, uint64_t a_cols, int64_t a_rs, int64_t a_cs,
    double *b, size_t b_len, uint64_t b_start, uint64_t b_rows, uint64_t b_cols, int64_t b_rs, int64_t b_cs);
uint8_t zb_strmm(
    uint8_t side,
    uint8_t uplo,
    uint8_t trans,
    uint8_t diag,
    float alpha,
    const float *a, size_t a_len, uint64_t a_start, uint64_t a_rows, uint64_t a_cols, int64_t a_rs, int64_t a_cs,
    float *b, size_t b_len, uint64_t b_start, uint64_t b_rows, uint64_t b_cols, int64_t b_rs, int64_t b_cs);
uint8_t zb_ztrmm(
    uint8_t side,
    uint8_t uplo,
    uint8_t trans,
    uint8_t diag,
    double alpha_re, double alpha_im,
    const double *a, size_t a_len, uint64_t a_start, uint64_t a_rows, uint64_t a_cols, int64_t a_rs, int64_t a_cs,
    double *b, size_t b_len, uint64_t b_start, uint64_t b_rows, uint64_t b_cols, int64_t b_rs, int64_t b_cs);

/* op(A) X = alpha B or X op(A) = alpha B solved in B's place, A triangular */
uint8_t zb_dtrsm(
    uint8_t side,
    uint8_t uplo,
    uint8_t trans,
    uint8_t diag,
    double alpha,
    const double *a, size_t a_len, uint64_t a_start, uint64_t a_rows, uint64_t a_cols, int64_t a_rs, int64_t a_cs,
    double *b, size_t b_len, uint64_t b_start, uint64_t b_rows, uint64_t b_cols, int64_t b_rs, int64_t b_cs);
uint8_t zb_strsm(
    uint8_t side,
    uint8_t uplo,
    uint8_t trans,
    uint8_t diag,
    float alpha,
    const float *a, size_t a_len, uint64_t a_start, uint64_t a_rows, uint64_t a_cols, int64_t a_rs, int64_t a_cs,
    float *b, size_t b_len, uint64_t b_start, uint64_t b_rows, uint64_t b_cols, int64_t b_rs, int64_t b_cs);
uint8_t zb_ztrsm(
    uint8_t side,
    uint8_t uplo,
    uint8_t trans,
    uint8_t diag,
    double alpha_re, double alpha_im,
    const double *a, size_t a_len, uint64_t a_start, uint64_t a_rows, uint64_t a_cols, int64_t a_rs, int64_t a_cs,
    double *b, size_t b_len, uint64_t b_start, uint64_t b_rows, uint64_t b_cols, int64_t b_rs, int64_t b_cs);

/* The matrix of a card, of either kind, into the front of the slab; its kind and shape into kind, rows and cols */
uint8_t zb_card_read(
    const uint8_t *card, size_t card_len,
    double *slab, size_t slab_len,
    uint8_t *kind, uint64_t *rows, uint64_t *cols);

/* The matrix in the front of the slab, real or complex, into a card; the card's length in bytes into length */
uint8_t zb_dcard_write(
    uint64_t rows, uint64_t cols,
    const double *slab, size_t slab_len,
    uint8_t *card, size_t card_len,
    uint64_t *length);
uint8_t zb_zcard_write(
    uint64_t rows, uint64_t cols,
    const double *slab, size_t slab_len,
    uint8_t *card, size_t card_len,
    uint64_t *length);

#ifdef __cplusplus
}
#endif

#endif
