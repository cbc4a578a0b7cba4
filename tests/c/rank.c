/* The rank updates of each kind, their refusals, and a flag out of range. */
#include "test.h"

/* alpha 2, x (1,2), y (3,4); the lower triangle is not named and stays 9. Two terms (1e8,1) and (5e7,1) are added one
 * after the other, old NaN unread. With no terms and alpha infinite her2k adds nothing, and syr2k infinity times 0. */
#define REAL(T, p)                                                                                                     \
    static void p##_real(void) {                                                                                       \
        const T x[] = {1, 2}, y[] = {3, 4}, k[] = {1e8, 1}, l[] = {5e7, 1};                                            \
        T a[] = {1, 1, 9, 1}, b[] = {0, 0, 9, 0}, c[] = {NAN}, d[] = {7};                                              \
        uint8_t r = zb_##p##her(ZB_UPPER, 2, ZB_ARRAY_VECTOR(x, 2, 1), ZB_ARRAY_BY_ROWS(a, 2, 2, 2));                  \
        expect("zb_" #p "her", r == ZB_DONE && a[0] == 3 && a[1] == 5 && a[2] == 9 && a[3] == 9);                      \
        r = zb_##p##her2(ZB_UPPER, 2, ZB_ARRAY_VECTOR(x, 2, 1), ZB_ARRAY_VECTOR(y, 2, 1),                              \
                         ZB_ARRAY_BY_ROWS(b, 2, 2, 2));                                                                \
        expect("zb_" #p "her2", r == ZB_DONE && b[0] == 12 && b[1] == 20 && b[2] == 9 && b[3] == 32);                  \
        r = zb_##p##syr2k(ZB_UPPER, ZB_NO_TRANS, 1, ZB_ARRAY_BY_ROWS(k, 1, 2, 2), ZB_ARRAY_BY_ROWS(l, 1, 2, 2), 0,     \
                          ZB_ARRAY_BY_ROWS(c, 1, 1, 1));                                                               \
        expect("zb_" #p "syr2k", r == ZB_DONE && c[0] == (T)1e16);                                                     \
        r = zb_##p##her2k(ZB_UPPER, ZB_NO_TRANS, 2, ZB_ARRAY_BY_ROWS(x, 1, 2, 2), ZB_ARRAY_BY_ROWS(y, 1, 2, 2), 3,     \
                          ZB_ARRAY_BY_ROWS(d, 1, 1, 1));                                                               \
        expect("zb_" #p "her2k", r == ZB_DONE && d[0] == 65);                                                          \
        r = zb_##p##her2k(ZB_UPPER, ZB_NO_TRANS, INFINITY, ZB_ARRAY_BY_ROWS(x, 1, 0, 1), ZB_ARRAY_BY_ROWS(y, 1, 0, 1), \
                          1, ZB_ARRAY_BY_ROWS(d, 1, 1, 1));                                                            \
        expect("zb_" #p "her2k without terms", r == ZB_DONE && d[0] == 65);                                            \
        r = zb_##p##syr2k(ZB_UPPER, ZB_NO_TRANS, INFINITY, ZB_ARRAY_BY_ROWS(x, 1, 0, 1), ZB_ARRAY_BY_ROWS(y, 1, 0, 1), \
                          1, ZB_ARRAY_BY_ROWS(d, 1, 1, 1));                                                            \
        expect("zb_" #p "syr2k without terms", r == ZB_DONE && isnan(d[0]));                                           \
    }

REAL(double, d)
REAL(float, s)

static void complex_numbers(void) {
    /* her Lower, a (1,5), x (1,1), alpha 2: (5,5), the diagonal's imaginary part stays */
    const double one[] = {1, 0}, i[] = {0, 1}, x[] = {1, 1};
    double a[] = {1, 5};
    uint8_t r = zb_zher(ZB_LOWER, 2, ZB_ARRAY_VECTOR(x, 1, 1), ZB_ARRAY_BY_ROWS(a, 1, 1, 1));
    expect("zb_zher", r == ZB_DONE && a[0] == 5 && a[1] == 5);

    /* x 1, y i, alpha i: i times -i, then -i times i */
    double b[] = {0, 0};
    r = zb_zher2(ZB_UPPER, 0, 1, ZB_ARRAY_VECTOR(one, 1, 1), ZB_ARRAY_VECTOR(i, 1, 1), ZB_ARRAY_BY_ROWS(b, 1, 1, 1));
    expect("zb_zher2", r == ZB_DONE && b[0] == 2 && b[1] == 0);

    /* the same numbers, ConjTrans, onto beta times 1: syr2k's i (i + i) has nothing conjugated; her2k's
     * i i + (-i) (-i) has */
    double c[] = {1, 0}, d[] = {1, 0};
    r = zb_zsyr2k(ZB_UPPER, ZB_CONJ_TRANS, 0, 1, ZB_ARRAY_BY_ROWS(one, 1, 1, 1), ZB_ARRAY_BY_ROWS(i, 1, 1, 1), 0, 3,
                  ZB_ARRAY_BY_ROWS(c, 1, 1, 1));
    expect("zb_zsyr2k", r == ZB_DONE && c[0] == -2 && c[1] == 3);
    r = zb_zher2k(ZB_UPPER, ZB_CONJ_TRANS, 0, 1, ZB_ARRAY_BY_ROWS(one, 1, 1, 1), ZB_ARRAY_BY_ROWS(i, 1, 1, 1), 3,
                  ZB_ARRAY_BY_ROWS(d, 1, 1, 1));
    expect("zb_zher2k", r == ZB_DONE && d[0] == 1 && d[1] == 0);
}

/* A i, B i, alpha 1, beta 0: syrk and syr2k conjugate nothing under ConjTrans, herk and her2k conjugate under Trans. */
static void transposes(void) {
    const double i[] = {0, 1};
    double c[4][2];
    uint8_t r[] = {
        zb_zsyrk(ZB_UPPER, ZB_CONJ_TRANS, 1, 0, ZB_ARRAY_BY_ROWS(i, 1, 1, 1), 0, 0, ZB_ARRAY_BY_ROWS(c[0], 1, 1, 1)),
        zb_zsyr2k(ZB_UPPER, ZB_CONJ_TRANS, 1, 0, ZB_ARRAY_BY_ROWS(i, 1, 1, 1), ZB_ARRAY_BY_ROWS(i, 1, 1, 1), 0, 0,
                  ZB_ARRAY_BY_ROWS(c[1], 1, 1, 1)),
        zb_zherk(ZB_UPPER, ZB_TRANS, 1, ZB_ARRAY_BY_ROWS(i, 1, 1, 1), 0, ZB_ARRAY_BY_ROWS(c[2], 1, 1, 1)),
        zb_zher2k(ZB_UPPER, ZB_TRANS, 1, 0, ZB_ARRAY_BY_ROWS(i, 1, 1, 1), ZB_ARRAY_BY_ROWS(i, 1, 1, 1), 0,
                  ZB_ARRAY_BY_ROWS(c[3], 1, 1, 1)),
    };
    expect("zb_zsyrk ConjTrans", r[0] == ZB_DONE && c[0][0] == -1 && c[0][1] == 0);
    expect("zb_zsyr2k ConjTrans", r[1] == ZB_DONE && c[1][0] == -2 && c[1][1] == 0);
    expect("zb_zherk Trans", r[2] == ZB_DONE && c[2][0] == 1 && c[2][1] == 0);
    expect("zb_zher2k Trans", r[3] == ZB_DONE && c[3][0] == 2 && c[3][1] == 0);
}

static void refusals(void) {
    const double x[] = {1, 2, 3, 4};
    double a[] = {1, 2, 3, 4};
    uint8_t r[] = {
        /* 65 columns */
        zb_dher(ZB_UPPER, 1, x, 4, 0, 0, 65, 1, 1, ZB_ARRAY_BY_ROWS(a, 2, 2, 2)),
        /* x ends beside its slab */
        zb_dher2(ZB_UPPER, 1, x, 4, 3, 2, 1, 1, 1, ZB_ARRAY_VECTOR(x, 2, 1), ZB_ARRAY_BY_ROWS(a, 2, 2, 2)),
        /* two terms and one */
        zb_dsyr2k(ZB_UPPER, ZB_NO_TRANS, 1, ZB_ARRAY_BY_ROWS(x, 2, 2, 2), ZB_ARRAY_BY_ROWS(x, 2, 1, 1), 1,
                  ZB_ARRAY_BY_ROWS(a, 2, 2, 2)),
        /* (0,1) and (1,0) on one place */
        zb_dher2k(ZB_UPPER, ZB_NO_TRANS, 1, ZB_ARRAY_BY_ROWS(x, 2, 1, 1), ZB_ARRAY_BY_ROWS(x, 2, 1, 1), 1, a, 4, 0, 2,
                  2, 1, 1),
        /* flags out of range; with 65 columns the lower number is the answer */
        zb_dher(2, 1, ZB_ARRAY_VECTOR(x, 2, 1), ZB_ARRAY_BY_ROWS(a, 2, 2, 2)),
        zb_dsyr2k(ZB_UPPER, 3, 1, ZB_ARRAY_BY_ROWS(x, 2, 1, 1), ZB_ARRAY_BY_ROWS(x, 2, 1, 1), 1,
                  ZB_ARRAY_BY_ROWS(a, 2, 2, 2)),
        zb_dher(2, 1, x, 4, 0, 0, 65, 1, 1, ZB_ARRAY_BY_ROWS(a, 2, 2, 2)),
    };
    expect("rank updates refused with 1 to 4",
           r[0] == ZB_TOO_LARGE && r[1] == ZB_OUT_OF_BOUNDS && r[2] == ZB_SHAPE_MISMATCH && r[3] == ZB_OVERLAP);
    expect("rank updates' flags", r[4] == ZB_SHAPE_MISMATCH && r[5] == ZB_SHAPE_MISMATCH && r[6] == ZB_TOO_LARGE);
    expect("rank updates refused leave the target", a[0] == 1 && a[1] == 2 && a[2] == 3 && a[3] == 4);
}

void rank_updates(void) {
    d_real();
    s_real();
    complex_numbers();
    transposes();
    refusals();
}
