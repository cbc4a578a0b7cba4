/* Cards read and written: their bytes outright, every departure, the order of the answers, and what stays. */
#include "by_hand.h"
#include "test.h"
#include <stdlib.h>
#include <string.h>

enum { MOST = 2 * 64 * 64, SPARE = 2 * BLOCK, ROOM = 132 * BLOCK + SPARE };

/* What a call may write to: the slab or the buffer, and what is handed back; and the same before the call. */
static struct lent {
    double slab[MOST + 4];
    uint8_t card[ROOM], kind;
    uint64_t rows, cols, length;
} now, before;

/* Numbers that no call gives, bytes that no card has. */
static void lend(void) {
    memset(&now, 0xA5, sizeof now);
    before = now;
}

static int untouched(void) { return memcmp(&now, &before, sizeof now) == 0; }

static uint8_t read_card(const uint8_t *card, size_t card_len, size_t slab_len) {
    lend();
    return zb_card_read(card, card_len, now.slab, slab_len, &now.kind, &now.rows, &now.cols);
}

/* Is this card refused with this answer, everything staying? The slab is long enough for any matrix. */
static int refused(const uint8_t *card, size_t card_len, uint8_t answer) {
    return read_card(card, card_len, MOST) == answer && untouched();
}

static uint8_t write_card(uint8_t kind, uint64_t rows, uint64_t cols, const double *slab, size_t slab_len,
                          size_t room) {
    lend();
    return kind == ZB_CARD_REAL ? zb_dcard_write(rows, cols, slab, slab_len, now.card, room, &now.length)
                                : zb_zcard_write(rows, cols, slab, slab_len, now.card, room, &now.length);
}

/* ---- the bytes of a small card */

/* [[1,-2]]: 3ff0000000000000 and c000000000000000. The header's bytes add up to 65 + 82 + 77 + 77 + 1 + 2 = 304, the
 * data block's to 240 + 63 + 192 + 1 = 496. As one complex element, 1 by 1, the header's add up to 303 + 1. */
static void outright(void) {
    const double a[] = {1, -2};
    uint8_t card[2 * BLOCK] = {'A', 'R', 'M', 'M', 1, 0, 2, 0, 0};
    card[510] = 304 & 255, card[511] = 304 >> 8;
    card[BLOCK + 6] = 0xf0, card[BLOCK + 7] = 0x3f, card[BLOCK + 15] = 0xc0, card[BLOCK + 504] = 1;
    card[BLOCK + 510] = 496 & 255, card[BLOCK + 511] = 496 >> 8;
    uint8_t r = write_card(ZB_CARD_REAL, 1, 2, a, 2, sizeof card);
    expect("zb_dcard_write, every byte",
           r == ZB_DONE && now.length == 1024 && memcmp(now.card, card, sizeof card) == 0);
    r = read_card(card, sizeof card, 2);
    expect("zb_card_read, real", r == ZB_DONE && now.kind == ZB_CARD_REAL && now.rows == 1 && now.cols == 2 &&
                                     now.slab[0] == 1 && now.slab[1] == -2);
    card[6] = 1, card[8] = 1;
    r = write_card(ZB_CARD_COMPLEX, 1, 1, a, 2, sizeof card);
    expect("zb_zcard_write, every byte",
           r == ZB_DONE && now.length == 1024 && memcmp(now.card, card, sizeof card) == 0);
    r = read_card(card, sizeof card, 2);
    expect("zb_card_read, complex", r == ZB_DONE && now.kind == ZB_CARD_COMPLEX && now.rows == 1 && now.cols == 1 &&
                                        now.slab[0] == 1 && now.slab[1] == -2);
}

/* ---- there and back */

/* Numbers of all sizes, both zeros, infinities and a subnormal number among them, and no NaN. */
static const double *sample(void) {
    static double numbers[MOST];
    for (uint64_t i = 0; i < MOST; i++) numbers[i] = number((i * 0x9e3779b97f4a7c15 & ~(UINT64_C(1) << 52)) ^ i);
    numbers[0] = -0.0, numbers[1] = 0.0, numbers[2] = INFINITY, numbers[3] = -INFINITY, numbers[4] = 5e-324;
    return numbers;
}

/* Is the rest of what was lent as before, the first so many numbers and bytes and what is handed back aside? */
static int rest(size_t numbers, size_t bytes) {
    return memcmp(now.slab + numbers, before.slab + numbers, sizeof now.slab - numbers * sizeof *now.slab) == 0 &&
           memcmp(now.card + bytes, before.card + bytes, sizeof now.card - bytes) == 0;
}

/* The card of a matrix is the one made by hand, in a longer buffer too; read, it gives the same bits. */
static int round_trip(uint8_t kind, uint64_t rows, uint64_t cols) {
    static uint8_t card[1 + ROOM];
    size_t numbers = (size_t)(rows * cols * (kind + 1u)), length = by_hand(card + 1, kind, rows, cols, sample());
    for (size_t spare = 0; spare <= SPARE; spare += SPARE - 1) {
        uint8_t r = write_card(kind, rows, cols, sample(), numbers + spare % 2, length + spare);
        if (r != ZB_DONE || now.length != length || memcmp(now.card, card + 1, length) != 0 || !rest(0, length))
            return 0;
    }
    for (size_t spare = 0; spare < 4; spare++) {
        uint8_t r = read_card(card + 1, length, numbers + spare);
        if (r != ZB_DONE || now.kind != kind || now.rows != rows || now.cols != cols) return 0;
        if (memcmp(now.slab, sample(), numbers * sizeof *now.slab) != 0 || !rest(numbers, 0)) return 0;
    }
    return ZB_CARD_LENGTH(numbers) == length;
}

/* Every number of columns with every eighth number of rows, every seventh with the others. */
static void round_trips(void) {
    int real = 0, complex = 0;
    for (uint64_t rows = 0; rows <= 64; rows++)
        for (uint64_t cols = 0; cols <= 64; cols += rows % 8 == 0 ? 1 : 7) {
            real += !round_trip(ZB_CARD_REAL, rows, cols);
            complex += !round_trip(ZB_CARD_COMPLEX, rows, cols);
        }
    expect("real cards there and back", real == 0);
    expect("complex cards there and back", complex == 0);
}

/* ---- departures */

static void torn(void) {
    uint8_t card[5 * BLOCK];
    size_t n = by_hand(card, ZB_CARD_REAL, 64, 2, sample());
    int each = 1;
    expect("part of a block", refused(card, 1, ZB_TORN_CARD) && refused(card, BLOCK - 1, ZB_TORN_CARD) &&
                                  refused(card, n - 1, ZB_TORN_CARD) && refused(card, n + 1, ZB_TORN_CARD));
    for (size_t i = 0; i < n; i++) {
        card[i] ^= 1;
        each &= refused(card, n, ZB_TORN_CARD);
        card[i] ^= 1;
    }
    expect("a bit changed in any byte", each && read_card(card, n, MOST) == ZB_DONE);
    memset(card + n, 1, BLOCK);
    expect("a block too many, of ones", refused(card, n + BLOCK, ZB_TORN_CARD));
    memset(card + n, 0, BLOCK);
    expect("a block too many, of zeros", refused(card, n + BLOCK, ZB_WRONG_CARD));
}

static void missing(void) {
    uint8_t card[4 * BLOCK] = {0};
    expect("no bytes", refused(card, 0, ZB_WRONG_CARD) && refused(NULL, 0, ZB_WRONG_CARD));
    expect("a block of zeros", refused(card, BLOCK, ZB_WRONG_CARD));
    by_hand(card, ZB_CARD_REAL, 64, 2, sample());
    expect("too few blocks", refused(card, BLOCK, ZB_WRONG_CARD) && refused(card, 3 * BLOCK, ZB_WRONG_CARD));
    expect("no header", refused(card + BLOCK, 3 * BLOCK, ZB_WRONG_CARD));
}

/* Is a card with one byte changed, the sum of its block made anew, a wrong one? */
static int wrong(uint8_t *card, size_t n, size_t place, uint8_t value) {
    uint8_t *block = card + place / BLOCK * BLOCK, old = card[place];
    card[place] = value;
    seal(block);
    int ok = refused(card, n, ZB_WRONG_CARD);
    card[place] = old;
    seal(block);
    return ok;
}

/* Of a card of 2 by 35, with 7 numbers in its second data block. */
static void changed(void) {
    uint8_t card[3 * BLOCK];
    size_t n = by_hand(card, ZB_CARD_REAL, 2, 35, sample());
    int letters = 1, header = 1, numbers = 1, zeros = 1;
    for (size_t i = 0; i < 4; i++) letters &= wrong(card, n, i, card[i] ^ 0x20) && wrong(card, n, i, 0);
    expect("other letters", letters);
    expect("another shape",
           wrong(card, n, 4, 1) && wrong(card, n, 5, 1) && wrong(card, n, 6, 0) && wrong(card, n, 7, 1));
    expect("kind 1 with the numbers of kind 0", wrong(card, n, 8, 1));
    for (size_t i = 9; i < 510; i++) header &= wrong(card, n, i, 1) && wrong(card, n, i, 0x80);
    expect("bytes 9 to 509 of the header", header);
    for (size_t k = 1; k <= 2; k++) {
        numbers &= wrong(card, n, k * BLOCK + 504, 0) && wrong(card, n, k * BLOCK + 504, 3);
        numbers &= wrong(card, n, k * BLOCK + 505, 1);
        for (size_t i = 506; i < 510; i++)
            zeros &= wrong(card, n, k * BLOCK + i, 1) && wrong(card, n, k * BLOCK + i, 0x80);
    }
    expect("the number of a block", numbers);
    for (size_t i = 8 * 7; i < 504; i++)
        zeros &= wrong(card, n, 2 * BLOCK + i, 1) && wrong(card, n, 2 * BLOCK + i, 0x80);
    expect("bytes past the matrix, -0 among them, and 506 to 509", zeros && read_card(card, n, MOST) == ZB_DONE);
}

/* On cards whose one data block, or none, is right for any kind. */
static void other_kinds(void) {
    uint8_t one[2 * BLOCK], none[BLOCK];
    size_t n = by_hand(one, ZB_CARD_REAL, 1, 1, NULL), m = by_hand(none, ZB_CARD_REAL, 0, 5, NULL);
    int each = 1;
    for (unsigned kind = 2; kind < 256; kind++)
        each &= wrong(one, n, 8, (uint8_t)kind) && wrong(none, m, 8, (uint8_t)kind);
    expect("kinds 2 to 255", each);
}

/* ---- the order of the answers */

static void order(void) {
    uint8_t card[4 * BLOCK];
    size_t n = by_hand(card, ZB_CARD_REAL, 2, 35, sample());
    card[BLOCK + 504] = 2;
    seal(card + BLOCK);
    card[2 * BLOCK] ^= 1;
    expect("a wrong block, then a torn one", refused(card, n, ZB_TORN_CARD));
    n = by_hand(card, ZB_CARD_REAL, 65, 1, NULL);
    expect("65 by 1", refused(card, n, ZB_TOO_LARGE) && read_card(card, n, 0) == ZB_TOO_LARGE && untouched());
    expect("65 by 1, a block missing", refused(card, n - BLOCK, ZB_WRONG_CARD));
    card[BLOCK + 504] = 2;
    seal(card + BLOCK);
    expect("65 by 1, a wrong block", refused(card, n, ZB_WRONG_CARD));
    n = by_hand(card, ZB_CARD_COMPLEX, 1, 65, NULL);
    expect("1 by 65, complex", refused(card, n, ZB_TOO_LARGE));
    n = by_hand(card, ZB_CARD_REAL, 0, 65, NULL);
    expect("0 by 65", n == BLOCK && refused(card, n, ZB_TOO_LARGE));
    n = by_hand(card, ZB_CARD_COMPLEX, 65535, 0, NULL);
    expect("65,535 by 0, complex", n == BLOCK && refused(card, n, ZB_TOO_LARGE));
}

/* 65,535 by 63 has as many data blocks as k can count, 65,535 by 64 has more. */
static void most_blocks(void) {
    uint8_t *card = malloc((size_t)66577 * BLOCK);
    if (card == NULL) {
        expect("memory for a card of 66,577 blocks", 0);
        return;
    }
    size_t n = by_hand(card, ZB_CARD_REAL, 65535, 63, NULL);
    expect("65,535 by 63", n == (size_t)65536 * BLOCK && refused(card, n, ZB_TOO_LARGE));
    n = by_hand(card, ZB_CARD_REAL, 65535, 64, NULL);
    expect("65,535 by 64", n == (size_t)66577 * BLOCK && refused(card, n, ZB_WRONG_CARD));
    free(card);
}

static void short_slabs(void) {
    uint8_t card[3 * BLOCK];
    size_t n = by_hand(card, ZB_CARD_REAL, 2, 35, sample());
    expect("a slab of 69 for 2 by 35", read_card(card, n, 69) == ZB_OUT_OF_BOUNDS && untouched());
    n = by_hand(card, ZB_CARD_COMPLEX, 1, 1, sample());
    expect("a slab of 1 for 1 by 1, complex", read_card(card, n, 1) == ZB_OUT_OF_BOUNDS && untouched());
    expect("a slab of 0 for 1 by 1, complex", read_card(card, n, 0) == ZB_OUT_OF_BOUNDS && untouched());
    expect("a slab of 3 for 1 by 1, complex",
           read_card(card, n, 3) == ZB_DONE && bits(now.slab[2]) == bits(before.slab[2]));
    n = by_hand(card, ZB_CARD_REAL, 0, 5, NULL);
    uint8_t r = zb_card_read(card, n, NULL, 0, &now.kind, &now.rows, &now.cols);
    expect("0 by 5 into no slab", r == ZB_DONE && now.kind == ZB_CARD_REAL && now.rows == 0 && now.cols == 5);
}

/* ---- NaN, and refused writes */

static void nan_patterns(void) {
    static const uint64_t patterns[] = {0x7ff0000000000001, 0x7ff8000000000000, 0xfff8000000000000,
                                        0x7fffffffffffffff, 0xffffffffffffffff, 0xfff0000000000001};
    uint8_t card[2 * BLOCK], single[2 * BLOCK];
    const double canonical = number(0x7ff8000000000000);
    int read = 1, written = 1;
    by_hand(single, ZB_CARD_REAL, 1, 1, &canonical);
    for (size_t i = 0; i < ZB_LENGTH(patterns); i++) {
        const double x = number(patterns[i]);
        size_t n = by_hand(card, ZB_CARD_REAL, 1, 1, &x);
        read &= read_card(card, n, 1) == ZB_DONE && isnan(now.slab[0]) && rest(1, 0);
        written &= write_card(ZB_CARD_REAL, 1, 1, &x, 1, n) == ZB_DONE && memcmp(now.card, single, n) == 0;
    }
    expect("a NaN is read as a NaN", read);
    expect("a NaN is written as 7ff8000000000000", written);
}

static int write_refused(uint8_t kind, uint64_t rows, uint64_t cols, size_t slab_len, size_t room, uint8_t answer) {
    return write_card(kind, rows, cols, sample(), slab_len, room) == answer && untouched();
}

static void refused_writes(void) {
    int large = 1, slab = 1, buffer = 1;
    for (uint8_t kind = ZB_CARD_REAL; kind <= ZB_CARD_COMPLEX; kind++) {
        size_t numbers = kind + 1u;
        large &= write_refused(kind, 65, 1, MOST, ROOM, ZB_TOO_LARGE) && write_refused(kind, 1, 65, 0, 0, ZB_TOO_LARGE);
        large &= write_refused(kind, 0, 65, MOST, ROOM, ZB_TOO_LARGE);
        large &= write_refused(kind, UINT64_MAX, 2, MOST, ROOM, ZB_TOO_LARGE);
        large &= write_refused(kind, UINT64_C(1) << 32, UINT64_C(1) << 32, MOST, ROOM, ZB_TOO_LARGE);
        slab &= write_refused(kind, 1, 1, numbers - 1, 1024, ZB_OUT_OF_BOUNDS);
        slab &= write_refused(kind, 64, 64, 4096 * numbers - 1, ROOM, ZB_OUT_OF_BOUNDS);
        buffer &= write_refused(kind, 1, 1, numbers, 1023, ZB_OUT_OF_BOUNDS);
        buffer &= write_refused(kind, 1, 1, numbers, 0, ZB_OUT_OF_BOUNDS);
        buffer &= write_refused(kind, 0, 5, 0, 511, ZB_OUT_OF_BOUNDS);
        buffer &= write_card(kind, 1, 1, sample(), numbers, 1024) == ZB_DONE;
    }
    expect("writing more than 64 rows or columns", large);
    expect("writing from a short slab", slab);
    expect("writing into a short buffer", buffer);
}

void cards(void) {
    outright();
    round_trips();
    torn();
    missing();
    changed();
    other_kinds();
    order();
    most_blocks();
    short_slabs();
    nan_patterns();
    refused_writes();
}
