/* The table of the functions, those of the routines each called with alpha 2 and beta 3. */
#include "routines.h"

#define F(k) c->flag[k]
#define V(k) \
    c->view[k].p, c->view[k].n, c->view[k].start, c->view[k].rows, c->view[k].cols, c->view[k].rs, c->view[k].cs

#define REAL(x) x
#define COMPLEX(x) x, 0

#define KIND(X, K, p, T, parts)                                                          \
    X(p, T, parts, gemv, "3", "mk0 k1- m1-", F(0), K(2), V(0), V(1), K(3), V(2))         \
    X(p, T, parts, hemv, "2", "mm- m1- m1-", F(0), K(2), V(0), V(1), K(3), V(2))         \
    X(p, T, parts, her, "2", "m1- mm-", F(0), 2, V(0), V(1))                             \
    X(p, T, parts, her2, "2", "m1- m1- mm-", F(0), K(2), V(0), V(1), V(2))               \
    X(p, T, parts, trmv, "232", "mm- m1-", F(0), F(1), F(2), V(0), V(1))                 \
    X(p, T, parts, trsv, "232", "mm- m1-", F(0), F(1), F(2), V(0), V(1))                 \
    X(p, T, parts, gemm, "33", "mk0 kn1 mn-", F(0), F(1), K(2), V(0), V(1), K(3), V(2))  \
    X(p, T, parts, symm, "22", "ss- mn- mn-", F(0), F(1), K(2), V(0), V(1), K(3), V(2))  \
    X(p, T, parts, hemm, "22", "ss- mn- mn-", F(0), F(1), K(2), V(0), V(1), K(3), V(2))  \
    X(p, T, parts, syrk, "23", "nk1 nn-", F(0), F(1), K(2), V(0), K(3), V(1))            \
    X(p, T, parts, herk, "23", "nk1 nn-", F(0), F(1), 2, V(0), 3, V(1))                  \
    X(p, T, parts, syr2k, "23", "nk1 nk1 nn-", F(0), F(1), K(2), V(0), V(1), K(3), V(2)) \
    X(p, T, parts, her2k, "23", "nk1 nk1 nn-", F(0), F(1), K(2), V(0), V(1), 3, V(2))    \
    X(p, T, parts, trmm, "2232", "ss- mn-", F(0), F(1), F(2), F(3), K(2), V(0), V(1))    \
    X(p, T, parts, trsm, "2232", "ss- mn-", F(0), F(1), F(2), F(3), K(2), V(0), V(1))

#define KINDS(X)                \
    KIND(X, REAL, d, double, 1) \
    KIND(X, REAL, s, float, 1)  \
    KIND(X, COMPLEX, z, double, 2)

#define FUNCTION(p, T, parts, name, flags, views, ...) \
    static uint8_t p##name(const struct call *c) { return zb_##p##name(__VA_ARGS__); }
#define ENTRY(p, T, parts, name, flags, views, ...) {"zb_" #p #name, p##name, sizeof(T), parts, flags, views, OF_VIEWS},

KINDS(FUNCTION)

#define SLAB(k) c->view[k].p, c->view[k].n

static uint8_t dcard_write(const struct call *c) {
    return zb_dcard_write(c->view[0].rows, c->view[0].cols, SLAB(0), SLAB(1), c->view[2].p);
}

static uint8_t zcard_write(const struct call *c) {
    return zb_zcard_write(c->view[0].rows, c->view[0].cols, SLAB(0), SLAB(1), c->view[2].p);
}

static uint8_t card_read(const struct call *c) {
    uint64_t *shape = c->view[2].p;
    return zb_card_read(SLAB(0), SLAB(1), (uint8_t *)shape + KIND_BYTE, &shape[0], &shape[1]);
}

const struct routine routines[ROUTINES] = {
    KINDS(ENTRY){"zb_dcard_write", dcard_write, sizeof(double), 1, "", "", WRITES_CARD},
    {"zb_zcard_write", zcard_write, sizeof(double), 2, "", "", WRITES_CARD},
    {"zb_card_read", card_read, sizeof(double), 1, "", "", READS_CARD},
};
