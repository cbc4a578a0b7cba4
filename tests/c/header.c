/* What the header has beside its functions, in the words that C90 and C++98 share. */
#include "zirve_blas.h"
#include <stdio.h>
#include <string.h>

static int failed;

static void expect(const char *what, int ok) {
    if (!ok) printf("%s: FAILED\n", what);
    failed += !ok;
}

/* Do the seven arguments of a view have this pointer, and these numbers behind it? */
static int has(const double *p, const double *q, unsigned long n, unsigned long start, unsigned long rows,
               unsigned long cols, long rs, long cs, const char *numbers) {
    char text[200];
    sprintf(text, "%lu %lu %lu %lu %ld %ld", n, start, rows, cols, rs, cs);
    return p == q && strcmp(text, numbers) == 0;
}

/* Sizes as programs have them: constants, int and size_t. */
static void views(void) {
    const double x[12] = {0};
    int rows = 2, cols = 3, ld = 4, none = 0, back = -3;
    size_t n = 12, count = 4;
    expect("ZB_BY_ROWS", has(x, ZB_BY_ROWS(x, n, rows, cols, ld), "12 0 2 3 4 1"));
    expect("ZB_BY_COLS", has(x, ZB_BY_COLS(x, 12, rows, cols, count), "12 0 2 3 1 4"));
    expect("ZB_VECTOR", has(x, ZB_VECTOR(x, n, rows + 1, rows), "12 0 3 1 2 1"));
    expect("ZB_VECTOR backwards", has(x, ZB_VECTOR(x, n, count, back), "12 9 4 1 -3 1"));
    expect("ZB_VECTOR backwards, one", has(x, ZB_VECTOR(x, 1, 1, -7), "1 0 1 1 -7 1"));
    expect("ZB_VECTOR backwards, none", has(NULL, ZB_VECTOR(NULL, none, none, back), "0 0 0 1 -3 1"));
    expect("ZB_ARRAY_BY_ROWS", has(x, ZB_ARRAY_BY_ROWS(x, rows, cols, 5), "12 0 2 3 5 1"));
    expect("ZB_ARRAY_BY_COLS", has(x, ZB_ARRAY_BY_COLS(x, 3, 4, 3), "12 0 3 4 1 3"));
    expect("ZB_ARRAY_VECTOR", has(x, ZB_ARRAY_VECTOR(x, 12, -1), "12 11 12 1 -1 1"));
    expect("ZB_LENGTH", ZB_LENGTH(x) == n);
}

/* A call with the macros as its arguments: [[1,2],[3,4]] by (1,10), which stands backwards; then a solve of that. */
static void calls(void) {
    const double a[] = {1, 2, 0, 3, 4}, x[] = {10, 0, 1}, u[] = {1, 0, 2, 1};
    double y[2];
    uint8_t trans = ZB_NO_TRANS;
    uint8_t answer =
        zb_dgemv(trans, 1, ZB_ARRAY_BY_ROWS(a, 2, 2, 3), ZB_ARRAY_VECTOR(x, 2, -2), 0, ZB_VECTOR(y, 2, 2, 1));
    expect("zb_dgemv", answer == ZB_DONE && y[0] == 21 && y[1] == 43);
    answer = zb_dtrsv(ZB_UPPER, ZB_NO_TRANS, ZB_NON_UNIT, ZB_ARRAY_BY_COLS(u, 2, 2, 2), ZB_ARRAY_VECTOR(y, 2, 1));
    expect("zb_dtrsv", answer == ZB_DONE && y[0] == -65 && y[1] == 43);
    answer =
        zb_dtrsm(ZB_RIGHT, ZB_LOWER, ZB_CONJ_TRANS, ZB_UNIT, 1, ZB_ARRAY_BY_ROWS(u, 2, 2, 2), ZB_ARRAY_VECTOR(y, 2, 1));
    expect("zb_dtrsm", answer == ZB_SHAPE_MISMATCH);
}

/* [[1,2],[3,4]] onto a card in an array of the macro's size, and back. */
static void cards(void) {
    const double a[] = {1, 2, 3, 4};
    uint8_t card[ZB_CARD_LENGTH(4)], kind = 9;
    uint64_t length = 0, rows = 0, cols = 0;
    double b[4];
    int none = 0, full = 63;
    size_t most = 2 * 64 * 64;
    uint8_t answer = zb_dcard_write(2, 2, a, ZB_LENGTH(a), card, sizeof card, &length);
    expect("zb_dcard_write", answer == ZB_DONE && length == sizeof card);
    answer = zb_card_read(card, sizeof card, b, ZB_LENGTH(b), &kind, &rows, &cols);
    expect("zb_card_read", answer == ZB_DONE && kind == ZB_CARD_REAL && rows == 2 && cols == 2);
    expect("zb_card_read, numbers", memcmp(a, b, sizeof b) == 0);
    answer = zb_zcard_write(2, 2, a, ZB_LENGTH(a), card, sizeof card, &length);
    expect("zb_zcard_write", answer == ZB_OUT_OF_BOUNDS);
    expect("ZB_CARD_LENGTH", ZB_CARD_LENGTH(none) == 512 && ZB_CARD_LENGTH(1) == 1024 && ZB_CARD_LENGTH(full) == 1024 &&
                                 ZB_CARD_LENGTH(full + 1) == 1536 && ZB_CARD_LENGTH(most) == 67584);
}

/* The numbers of document 01 and of the Rust's flags. */
static void names(void) {
    expect("trans", ZB_NO_TRANS == 0 && ZB_TRANS == 1 && ZB_CONJ_TRANS == 2);
    expect("uplo, diag and side",
           ZB_UPPER == 0 && ZB_LOWER == 1 && ZB_NON_UNIT == 0 && ZB_UNIT == 1 && ZB_LEFT == 0 && ZB_RIGHT == 1);
    expect("answers", ZB_DONE == 0 && ZB_TOO_LARGE == 1 && ZB_OUT_OF_BOUNDS == 2 && ZB_SHAPE_MISMATCH == 3 &&
                          ZB_OVERLAP == 4 && ZB_SINGULAR == 5 && ZB_TORN_CARD == 6 && ZB_WRONG_CARD == 7);
    expect("kinds of a card", ZB_CARD_REAL == 0 && ZB_CARD_COMPLEX == 1);
}

static void version(void) {
    char text[100];
    sprintf(text, "%d.%d.%d", ZB_VERSION_MAJOR, ZB_VERSION_MINOR, ZB_VERSION_PATCH);
    expect("version", strcmp(text, ZB_VERSION) == 0);
}

int main(void) {
    views();
    calls();
    cards();
    names();
    version();
    return failed != 0;
}
