/* The products of each kind, complex slabs, a refusal, and a flag out of range. */
#include "test.h"
#include <complex.h>

/* gemv NoTrans, A [[1,2],[3,4]], x (1,1), alpha 2, beta 0, y (NaN,5): (6,14); with beta 1 onto that.
 * gemm of a 2 by 0 and a 0 by 2 matrix, alpha 5, beta 3, C [[1,2],[3,4]]: [[3,6],[9,12]]. */
#define GENERAL(T, p)                                                                                                \
    static void p##_general(void) {                                                                                  \
        const T a[] = {1, 2, 3, 4}, x[] = {1, 1};                                                                    \
        T y[] = {NAN, 5}, c[] = {1, 2, 3, 4};                                                                        \
        uint8_t r = zb_##p##gemv(ZB_NO_TRANS, 2, ZB_ARRAY_BY_ROWS(a, 2, 2, 2), ZB_ARRAY_VECTOR(x, 2, 1), 0,          \
                                 ZB_ARRAY_VECTOR(y, 2, 1));                                                          \
        expect("zb_" #p "gemv", r == ZB_DONE && y[0] == 6 && y[1] == 14);                                            \
        r = zb_##p##gemv(ZB_NO_TRANS, 2, ZB_ARRAY_BY_ROWS(a, 2, 2, 2), ZB_ARRAY_VECTOR(x, 2, 1), 1,                  \
                         ZB_ARRAY_VECTOR(y, 2, 1));                                                                  \
        expect("zb_" #p "gemv beta 1", r == ZB_DONE && y[0] == 12 && y[1] == 28);                                    \
        r = zb_##p##gemm(ZB_NO_TRANS, ZB_NO_TRANS, 5, ZB_ARRAY_BY_ROWS(a, 2, 0, 1), ZB_ARRAY_BY_ROWS(a, 0, 2, 2), 3, \
                         ZB_ARRAY_BY_ROWS(c, 2, 2, 2));                                                              \
        expect("zb_" #p "gemm", r == ZB_DONE && c[0] == 3 && c[1] == 6 && c[2] == 9 && c[3] == 12);                  \
    }

/* Lower on [[1,99],[2,3]], B [[1],[0]], alpha 1, beta 0: [[1],[2]], by symm, hemm and hemv.
 * Upper NoTrans, A [[1],[2]], alpha 1, beta 0, C all 9: [[1,2],[9,4]], by syrk and herk. */
#define SYMMETRIC(T, p)                                                                                               \
    static void p##_symmetric(void) {                                                                                 \
        const T s[] = {1, 99, 2, 3}, b[] = {1, 0}, k[] = {1, 2};                                                      \
        T d[] = {NAN, NAN}, e[] = {NAN, NAN}, f[] = {NAN, NAN}, g[] = {9, 9, 9, 9}, h[] = {9, 9, 9, 9};               \
        uint8_t r = zb_##p##symm(ZB_LEFT, ZB_LOWER, 1, ZB_ARRAY_BY_ROWS(s, 2, 2, 2), ZB_ARRAY_BY_ROWS(b, 2, 1, 1), 0, \
                                 ZB_ARRAY_BY_ROWS(d, 2, 1, 1));                                                       \
        expect("zb_" #p "symm", r == ZB_DONE && d[0] == 1 && d[1] == 2);                                              \
        r = zb_##p##hemm(ZB_LEFT, ZB_LOWER, 1, ZB_ARRAY_BY_ROWS(s, 2, 2, 2), ZB_ARRAY_BY_ROWS(b, 2, 1, 1), 0,         \
                         ZB_ARRAY_BY_ROWS(e, 2, 1, 1));                                                               \
        expect("zb_" #p "hemm", r == ZB_DONE && e[0] == 1 && e[1] == 2);                                              \
        r = zb_##p##hemv(ZB_LOWER, 1, ZB_ARRAY_BY_ROWS(s, 2, 2, 2), ZB_ARRAY_VECTOR(b, 2, 1), 0,                      \
                         ZB_ARRAY_VECTOR(f, 2, 1));                                                                   \
        expect("zb_" #p "hemv", r == ZB_DONE && f[0] == 1 && f[1] == 2);                                              \
        r = zb_##p##syrk(ZB_UPPER, ZB_NO_TRANS, 1, ZB_ARRAY_BY_ROWS(k, 2, 1, 1), 0, ZB_ARRAY_BY_ROWS(g, 2, 2, 2));    \
        expect("zb_" #p "syrk", r == ZB_DONE && g[0] == 1 && g[1] == 2 && g[2] == 9 && g[3] == 4);                    \
        r = zb_##p##herk(ZB_UPPER, ZB_NO_TRANS, 1, ZB_ARRAY_BY_ROWS(k, 2, 1, 1), 0, ZB_ARRAY_BY_ROWS(h, 2, 2, 2));    \
        expect("zb_" #p "herk", r == ZB_DONE && h[0] == 1 && h[1] == 2 && h[2] == 9 && h[3] == 4);                    \
    }

GENERAL(double, d)
GENERAL(float, s)
SYMMETRIC(double, d)
SYMMETRIC(float, s)

static void complex_numbers(void) {
    /* gemv ConjTrans, 1 by 1: A (1,2), x (3,0), alpha 1, beta 0: (3,-6); then gemm onto i times that, (6,3) */
    const double a[] = {1, 2}, x[] = {3, 0};
    double y[] = {NAN, NAN};
    uint8_t r = zb_zgemv(ZB_CONJ_TRANS, 1, 0, ZB_ARRAY_BY_ROWS(a, 1, 1, 1), ZB_ARRAY_VECTOR(x, 1, 1), 0, 0,
                         ZB_ARRAY_VECTOR(y, 1, 1));
    expect("zb_zgemv", r == ZB_DONE && y[0] == 3 && y[1] == -6);
    r = zb_zgemm(ZB_CONJ_TRANS, ZB_NO_TRANS, 1, 0, ZB_ARRAY_BY_ROWS(a, 1, 1, 1), ZB_ARRAY_BY_ROWS(x, 1, 1, 1), 0, 1,
                 ZB_ARRAY_BY_ROWS(y, 1, 1, 1));
    expect("zb_zgemm", r == ZB_DONE && y[0] == 9 && y[1] == -3);

    /* Upper on [[0,i],[99,0]], B (1,0), alpha 1, beta 0: the mirrored element is i in symm, -i in hemm and hemv */
    const double s[] = {0, 0, 0, 1, 99, 99, 0, 0}, b[] = {1, 0, 0, 0};
    double d[4], e[4], f[4];
    r = zb_zsymm(ZB_LEFT, ZB_UPPER, 1, 0, ZB_ARRAY_BY_ROWS(s, 2, 2, 2), ZB_ARRAY_BY_ROWS(b, 2, 1, 1), 0, 0,
                 ZB_ARRAY_BY_ROWS(d, 2, 1, 1));
    expect("zb_zsymm", r == ZB_DONE && d[0] == 0 && d[1] == 0 && d[2] == 0 && d[3] == 1);
    r = zb_zhemm(ZB_LEFT, ZB_UPPER, 1, 0, ZB_ARRAY_BY_ROWS(s, 2, 2, 2), ZB_ARRAY_BY_ROWS(b, 2, 1, 1), 0, 0,
                 ZB_ARRAY_BY_ROWS(e, 2, 1, 1));
    expect("zb_zhemm", r == ZB_DONE && e[0] == 0 && e[1] == 0 && e[2] == 0 && e[3] == -1);
    r = zb_zhemv(ZB_UPPER, 1, 0, ZB_ARRAY_BY_ROWS(s, 2, 2, 2), ZB_ARRAY_VECTOR(b, 2, 1), 0, 0,
                 ZB_ARRAY_VECTOR(f, 2, 1));
    expect("zb_zhemv", r == ZB_DONE && f[0] == 0 && f[1] == 0 && f[2] == 0 && f[3] == -1);

    /* A (1,2): its square (-3,4) times i, its squared length 5 times 2, onto beta times (1,1) */
    double g[] = {1, 1}, h[] = {1, 1};
    r = zb_zsyrk(ZB_UPPER, ZB_NO_TRANS, 0, 1, ZB_ARRAY_BY_ROWS(a, 1, 1, 1), 0, 1, ZB_ARRAY_BY_ROWS(g, 1, 1, 1));
    expect("zb_zsyrk", r == ZB_DONE && g[0] == -5 && g[1] == -2);
    r = zb_zherk(ZB_UPPER, ZB_NO_TRANS, 2, ZB_ARRAY_BY_ROWS(a, 1, 1, 1), 3, ZB_ARRAY_BY_ROWS(h, 1, 1, 1));
    expect("zb_zherk", r == ZB_DONE && h[0] == 13 && h[1] == 3);
}

/* The last number of an odd length is no element's; double complex is two numbers. */
static void complex_slabs(void) {
    const double a[] = {1, 2, NAN}, x[] = {3, 0, NAN};
    double y[] = {NAN, NAN, 7};
    uint8_t r = zb_zgemv(ZB_NO_TRANS, 1, 0, ZB_ARRAY_BY_ROWS(a, 1, 1, 1), ZB_ARRAY_VECTOR(x, 1, 1), 0, 0,
                         ZB_ARRAY_VECTOR(y, 1, 1));
    expect("zb_zgemv odd lengths", r == ZB_DONE && y[0] == 3 && y[1] == 6 && y[2] == 7);
    r = zb_zgemv(ZB_NO_TRANS, 1, 0, ZB_ARRAY_BY_ROWS(a, 1, 2, 2), ZB_ARRAY_VECTOR(x, 2, 1), 0, 0,
                 ZB_ARRAY_VECTOR(y, 1, 1));
    expect("zb_zgemv half an element", r == ZB_OUT_OF_BOUNDS && y[0] == 3 && y[1] == 6 && y[2] == 7);

    const double complex b[] = {1 + 2 * I, 5 + 6 * I}, z[] = {3, I};
    double complex w[1];
    r = zb_zgemv(ZB_NO_TRANS, 1, 0, ZB_BY_ROWS((const double *)b, 4, 1, 2, 2), ZB_VECTOR((const double *)z, 4, 2, -1),
                 0, 0, ZB_VECTOR((double *)w, 2, 1, 1));
    expect("zb_zgemv of double complex", r == ZB_DONE && w[0] == 13 + 19 * I);
}

static void refusals(void) {
    const double a[] = {1};
    double c[] = {1, 2, 3, 4, 5, 6};
    /* a target of 2 rows and 3 columns with strides 2 and 1 is refused with 4, and stays */
    uint8_t r = zb_dgemm(ZB_NO_TRANS, ZB_NO_TRANS, 1, ZB_ARRAY_BY_ROWS(a, 2, 0, 1), ZB_ARRAY_BY_ROWS(a, 0, 3, 3), 2, c,
                         6, 0, 2, 3, 2, 1);
    expect("zb_dgemm overlap", r == ZB_OVERLAP && c[0] == 1 && c[5] == 6);
    /* a flag out of its range is a misfit */
    r = zb_dgemm(3, ZB_NO_TRANS, 1, ZB_ARRAY_BY_ROWS(a, 2, 0, 1), ZB_ARRAY_BY_ROWS(a, 0, 3, 3), 2,
                 ZB_ARRAY_BY_ROWS(c, 2, 3, 3));
    expect("zb_dgemm flag", r == ZB_SHAPE_MISMATCH && c[0] == 1 && c[5] == 6);
}

void products(void) {
    d_general();
    s_general();
    d_symmetric();
    s_symmetric();
    complex_numbers();
    complex_slabs();
    refusals();
}
