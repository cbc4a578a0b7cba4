/* The triangular routines of each kind, their refusals, and flags out of range. */
#include "test.h"

/* trmv Upper NoTrans NonUnit, [[2,3],[NaN,4]], x (1,1): (5,4).
 * trsv Lower NoTrans Unit, [[0,7],[3,0]], x (2,7): (2,1).
 * trsv Upper NoTrans NonUnit, [[0,1],[9,2]], x (5,4): refusal 5, x is (5,2). */
#define VECTORS(T, p)                                                                                                 \
    static void p##_vectors(void) {                                                                                   \
        const T a[] = {2, 3, NAN, 4}, b[] = {0, 7, 3, 0}, c[] = {0, 1, 9, 2};                                         \
        T x[] = {1, 1}, y[] = {2, 7}, z[] = {5, 4};                                                                   \
        uint8_t r =                                                                                                   \
            zb_##p##trmv(ZB_UPPER, ZB_NO_TRANS, ZB_NON_UNIT, ZB_ARRAY_BY_ROWS(a, 2, 2, 2), ZB_ARRAY_VECTOR(x, 2, 1)); \
        expect("zb_" #p "trmv", r == ZB_DONE && x[0] == 5 && x[1] == 4);                                              \
        r = zb_##p##trsv(ZB_LOWER, ZB_NO_TRANS, ZB_UNIT, ZB_ARRAY_BY_ROWS(b, 2, 2, 2), ZB_ARRAY_VECTOR(y, 2, 1));     \
        expect("zb_" #p "trsv", r == ZB_DONE && y[0] == 2 && y[1] == 1);                                              \
        r = zb_##p##trsv(ZB_UPPER, ZB_NO_TRANS, ZB_NON_UNIT, ZB_ARRAY_BY_ROWS(c, 2, 2, 2), ZB_ARRAY_VECTOR(z, 2, 1)); \
        expect("zb_" #p "trsv singular", r == ZB_SINGULAR && z[0] == 5 && z[1] == 2);                                 \
    }

/* trsm Right Upper NoTrans NonUnit, alpha 2, [[1,1],[0,0]], B [[3,4]]: refusal 5, B is [[6,8]].
 * trsm Left NonUnit, A 2 by 2 all zero, B 2 by 0: answer 0.
 * trmm Left Lower Trans Unit, alpha 2, [[NaN,NaN],[3,NaN]], B [[1],[2]]: [[14],[4]]; trsm of that with alpha 1/2: B. */
#define MATRICES(T, p)                                                                                          \
    static void p##_matrices(void) {                                                                            \
        const T d[] = {1, 1, 0, 0}, o[] = {0, 0, 0, 0}, f[] = {NAN, NAN, 3, NAN};                               \
        T e[] = {3, 4}, g[] = {1, 2};                                                                           \
        uint8_t r = zb_##p##trsm(ZB_RIGHT, ZB_UPPER, ZB_NO_TRANS, ZB_NON_UNIT, 2, ZB_ARRAY_BY_ROWS(d, 2, 2, 2), \
                                 ZB_ARRAY_BY_ROWS(e, 1, 2, 2));                                                 \
        expect("zb_" #p "trsm singular", r == ZB_SINGULAR && e[0] == 6 && e[1] == 8);                           \
        r = zb_##p##trsm(ZB_LEFT, ZB_UPPER, ZB_NO_TRANS, ZB_NON_UNIT, 2, ZB_ARRAY_BY_ROWS(o, 2, 2, 2),          \
                         ZB_ARRAY_BY_ROWS(e, 2, 0, 1));                                                         \
        expect("zb_" #p "trsm empty", r == ZB_DONE && e[0] == 6 && e[1] == 8);                                  \
        r = zb_##p##trmm(ZB_LEFT, ZB_LOWER, ZB_TRANS, ZB_UNIT, 2, ZB_ARRAY_BY_ROWS(f, 2, 2, 2),                 \
                         ZB_ARRAY_BY_ROWS(g, 2, 1, 1));                                                         \
        expect("zb_" #p "trmm", r == ZB_DONE && g[0] == 14 && g[1] == 4);                                       \
        r = zb_##p##trsm(ZB_LEFT, ZB_LOWER, ZB_TRANS, ZB_UNIT, 0.5, ZB_ARRAY_BY_ROWS(f, 2, 2, 2),               \
                         ZB_ARRAY_BY_ROWS(g, 2, 1, 1));                                                         \
        expect("zb_" #p "trsm", r == ZB_DONE && g[0] == 1 && g[1] == 2);                                        \
    }

VECTORS(double, d)
VECTORS(float, s)
MATRICES(double, d)
MATRICES(float, s)

static void complex_numbers(void) {
    /* A [[i]] conjugated, x 3: -3 i, and back by the solve */
    const double i[] = {0, 1};
    double x[] = {3, 0};
    uint8_t r = zb_ztrmv(ZB_UPPER, ZB_CONJ_TRANS, ZB_NON_UNIT, ZB_ARRAY_BY_ROWS(i, 1, 1, 1), ZB_ARRAY_VECTOR(x, 1, 1));
    expect("zb_ztrmv", r == ZB_DONE && x[0] == 0 && x[1] == -3);
    r = zb_ztrsv(ZB_UPPER, ZB_CONJ_TRANS, ZB_NON_UNIT, ZB_ARRAY_BY_ROWS(i, 1, 1, 1), ZB_ARRAY_VECTOR(x, 1, 1));
    expect("zb_ztrsv", r == ZB_DONE && x[0] == 3 && x[1] == 0);

    /* the same from the right with alpha (0,2) */
    r = zb_ztrmm(ZB_RIGHT, ZB_UPPER, ZB_CONJ_TRANS, ZB_NON_UNIT, 0, 2, ZB_ARRAY_BY_ROWS(i, 1, 1, 1),
                 ZB_ARRAY_BY_ROWS(x, 1, 1, 1));
    expect("zb_ztrmm", r == ZB_DONE && x[0] == 6 && x[1] == 0);
    r = zb_ztrsm(ZB_RIGHT, ZB_UPPER, ZB_CONJ_TRANS, ZB_NON_UNIT, 0, 2, ZB_ARRAY_BY_ROWS(i, 1, 1, 1),
                 ZB_ARRAY_BY_ROWS(x, 1, 1, 1));
    expect("zb_ztrsm", r == ZB_DONE && x[0] == -12 && x[1] == 0);

    /* a zero pivot: of (0,0) the solve leaves x, and (-0,2) is none */
    const double zero[] = {0, 0}, two[] = {-0.0, 2};
    r = zb_ztrsv(ZB_UPPER, ZB_NO_TRANS, ZB_NON_UNIT, ZB_ARRAY_BY_ROWS(zero, 1, 1, 1), ZB_ARRAY_VECTOR(x, 1, 1));
    expect("zb_ztrsv singular", r == ZB_SINGULAR && x[0] == -12 && x[1] == 0);
    r = zb_ztrsv(ZB_UPPER, ZB_NO_TRANS, ZB_NON_UNIT, ZB_ARRAY_BY_ROWS(two, 1, 1, 1), ZB_ARRAY_VECTOR(x, 1, 1));
    expect("zb_ztrsv pivot", r == ZB_DONE && x[0] == 0 && x[1] == 6);
}

static void refusals(void) {
    const double a[] = {1, 2, 3, 4};
    double x[] = {1, 2, 3, 4};
    uint8_t r[] = {
        /* 65 rows */
        zb_dtrmv(ZB_UPPER, ZB_NO_TRANS, ZB_NON_UNIT, ZB_ARRAY_BY_ROWS(a, 2, 2, 2), x, 4, 0, 65, 0, 1, 1),
        /* x ends beside its slab */
        zb_dtrsv(ZB_UPPER, ZB_NO_TRANS, ZB_NON_UNIT, ZB_ARRAY_BY_ROWS(a, 2, 2, 2), x, 4, 3, 2, 1, 1, 1),
        /* A is not square */
        zb_dtrmm(ZB_LEFT, ZB_UPPER, ZB_NO_TRANS, ZB_NON_UNIT, 1, ZB_ARRAY_BY_ROWS(a, 2, 1, 1),
                 ZB_ARRAY_BY_ROWS(x, 2, 2, 2)),
        /* (0,1) and (1,0) on one place */
        zb_dtrsm(ZB_LEFT, ZB_UPPER, ZB_NO_TRANS, ZB_NON_UNIT, 1, ZB_ARRAY_BY_ROWS(a, 2, 2, 2), x, 4, 0, 2, 2, 1, 1),
        /* flags out of range */
        zb_dtrmv(2, ZB_NO_TRANS, ZB_NON_UNIT, ZB_ARRAY_BY_ROWS(a, 2, 2, 2), ZB_ARRAY_VECTOR(x, 2, 1)),
        zb_dtrsv(ZB_UPPER, 3, ZB_NON_UNIT, ZB_ARRAY_BY_ROWS(a, 2, 2, 2), ZB_ARRAY_VECTOR(x, 2, 1)),
        zb_dtrmm(ZB_LEFT, ZB_UPPER, ZB_NO_TRANS, 2, 1, ZB_ARRAY_BY_ROWS(a, 2, 2, 2), ZB_ARRAY_BY_ROWS(x, 2, 2, 2)),
        zb_dtrsm(2, ZB_UPPER, ZB_NO_TRANS, ZB_NON_UNIT, 1, ZB_ARRAY_BY_ROWS(a, 2, 2, 2), ZB_ARRAY_BY_ROWS(x, 2, 2, 2)),
    };
    expect("triangular routines refused with 1 to 4",
           r[0] == ZB_TOO_LARGE && r[1] == ZB_OUT_OF_BOUNDS && r[2] == ZB_SHAPE_MISMATCH && r[3] == ZB_OVERLAP);
    expect("triangular routines' flags", r[4] == ZB_SHAPE_MISMATCH && r[5] == ZB_SHAPE_MISMATCH &&
                                             r[6] == ZB_SHAPE_MISMATCH && r[7] == ZB_SHAPE_MISMATCH);
    expect("triangular routines refused leave the target", x[0] == 1 && x[1] == 2 && x[2] == 3 && x[3] == 4);
}

void triangular(void) {
    d_vectors();
    s_vectors();
    d_matrices();
    s_matrices();
    complex_numbers();
    refusals();
}
