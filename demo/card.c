/* A matrix onto a card in a file, and back: it is written into a buffer, the buffer into the file, and what the file
 * holds is read into another slab and printed. Then two cards that are refused. */
#include "zirve_blas.h"
#include <stdio.h>
#include <stdlib.h>

enum { ROWS = 2, COLS = 3, NUMBERS = ROWS * COLS };

static const double matrix[NUMBERS] = {10, 40, 6, 30, 20, 14};

static const char *sentence(uint8_t answer) {
    switch (answer) {
    case ZB_DONE: return "done";
    case ZB_TOO_LARGE: return "more than 64 rows or columns";
    case ZB_OUT_OF_BOUNDS: return "the slab or the card's buffer is too short";
    case ZB_TORN_CARD: return "torn card";
    case ZB_WRONG_CARD: return "wrong card";
    default: return "no answer of a card's function";
    }
}

/* Prints the answer, and ends the program where it is another one than was to come. */
static void expect(const char *what, uint8_t answer, uint8_t wanted) {
    printf("%-31sanswer %d: %s\n", what, answer, sentence(answer));
    if (answer != wanted) exit(1);
}

static void check(int ok, const char *what) {
    if (ok) return;
    perror(what);
    exit(1);
}

static void save(const char *name, const uint8_t *card, size_t length) {
    FILE *file = fopen(name, "wb");
    check(file != NULL, name);
    check(fwrite(card, 1, length, file) == length, name);
    check(fclose(file) == 0, name);
}

/* The file's bytes, as many as the buffer takes. */
static size_t load(const char *name, uint8_t *card, size_t room) {
    FILE *file = fopen(name, "rb");
    check(file != NULL, name);
    size_t length = fread(card, 1, room, file);
    check(!ferror(file), name);
    check(fclose(file) == 0, name);
    return length;
}

static void print(const double *slab, uint64_t rows, uint64_t cols) {
    for (uint64_t r = 0; r < rows; r++) {
        for (uint64_t c = 0; c < cols; c++) printf("%7g", slab[r * cols + c]);
        printf("\n");
    }
}

static void write_card(const char *name) {
    static uint8_t card[ZB_CARD_LENGTH(NUMBERS)];
    uint64_t length;
    expect("write", zb_dcard_write(ROWS, COLS, matrix, NUMBERS, card, sizeof card, &length), ZB_DONE);
    save(name, card, length);
    printf("%s has %u bytes\n\n", name, (unsigned)length);
}

static void read_card(const char *name) {
    /* the longest card and a byte: a longer file ends inside a block, and is refused */
    static uint8_t card[ZB_CARD_LENGTH(2 * 64 * 64) + 1];
    static double slab[2 * 64 * 64];
    size_t length = load(name, card, sizeof card);
    uint64_t rows, cols;
    uint8_t kind;
    expect("read", zb_card_read(card, length, slab, ZB_LENGTH(slab), &kind, &rows, &cols), ZB_DONE);
    printf("%s, %u by %u\n", kind == ZB_CARD_COMPLEX ? "complex" : "real", (unsigned)rows, (unsigned)cols);
    print(slab, rows, cols);
    printf("\n");
    expect("read, the last block missing", zb_card_read(card, length - 512, slab, ZB_LENGTH(slab), &kind, &rows, &cols),
           ZB_WRONG_CARD);
    card[512] ^= 1;
    expect("read, one bit changed", zb_card_read(card, length, slab, ZB_LENGTH(slab), &kind, &rows, &cols),
           ZB_TORN_CARD);
}

int main(int count, char **words) {
    const char *name = count > 1 ? words[1] : "matrix.card";
    write_card(name);
    read_card(name);
    return 0;
}
