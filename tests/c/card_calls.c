/* Calls of the functions for cards over shapes and kinds, accepted and refused, placed as those of calls.c are: a slab,
 * a card and the words that are handed back, each beside a page that may not be touched. */
#define _GNU_SOURCE
#include "by_hand.h"
#include "calls.h"
#include <sys/mman.h>

/* No numbers, less than a data block, whole ones, one number more, and the most. */
static const struct shape {
    uint64_t rows, cols;
} shapes[] = {{0, 0}, {0, 5}, {5, 0}, {1, 1}, {2, 3}, {7, 9}, {8, 8}, {63, 2}, {64, 63}, {64, 64}};

/* The slab of a matrix, the buffer of its card, the words for its length or for its shape. */
static struct view slab_of(const struct shape *s, uint64_t parts) {
    return (struct view){.n = (size_t)(s->rows * s->cols * parts), .rows = s->rows, .cols = s->cols, .width = 8};
}

static struct view card_of(const struct view *slab) { return (struct view){.n = ZB_CARD_LENGTH(slab->n), .width = 1}; }

static struct view words(size_t bytes) { return (struct view){.n = bytes, .width = 1}; }

/* ---- writing */

static void prepare_write(struct worker *w, struct call *c, const struct shape *s, int at_end) {
    c->view[0] = slab_of(s, w->routine->parts);
    c->view[1] = card_of(&c->view[0]);
    c->view[2] = words(sizeof(uint64_t));
    for (int i = 0; i < 3; i++) place(w, i, &c->view[i], at_end);
}

static void refused_writes(struct worker *w, const struct call *c) {
    CHANGED(0, ZB_TOO_LARGE, v->rows = 65);
    CHANGED(0, ZB_TOO_LARGE, v->cols = UINT64_MAX);
    CHANGED(0, ZB_OUT_OF_BOUNDS, v->rows++);
    for (int i = 0; i < 2; i++) {
        CHANGED(i, ZB_OUT_OF_BOUNDS, v->n--);
        CHANGED(i, ZB_OUT_OF_BOUNDS, (v->p = NULL, v->n = 0));
    }
}

static void writes(struct worker *w, int at_end) {
    struct call c = {0};
    for (size_t s = 0; s < ZB_LENGTH(shapes); s++) {
        prepare_write(w, &c, &shapes[s], at_end);
        attempt(w, &c, ZB_DONE);
    }
    prepare_write(w, &c, &(struct shape){9, 14}, at_end);
    refused_writes(w, &c);
}

/* ---- reading */

static void prepare_read(struct worker *w, struct call *c, uint8_t kind, const struct shape *s, int at_end) {
    c->view[1] = slab_of(s, kind + 1u);
    c->view[0] = card_of(&c->view[1]);
    c->view[2] = words(SHAPE);
    for (int i = 0; i < 3; i++) place(w, i, &c->view[i], at_end);
    protect(w, 0, PROT_READ | PROT_WRITE);
    by_hand(c->view[0].p, kind, s->rows, s->cols, c->view[1].p);
    protect(w, 0, PROT_READ);
}

/* Attempts the call with one byte of its card changed, the sum of the block made anew or not. */
static void with_byte(struct worker *w, const struct call *c, size_t place, int sealed, uint8_t answer) {
    uint8_t *card = c->view[0].p, *block = card + place / BLOCK * BLOCK;
    for (int turn = 0; turn < 2; turn++) {
        protect(w, 0, PROT_READ | PROT_WRITE);
        card[place] ^= 1;
        if (sealed) seal(block);
        protect(w, 0, PROT_READ);
        if (turn == 0) attempt(w, c, answer);
    }
}

static void refused_reads(struct worker *w, const struct call *c) {
    CHANGED(0, ZB_TORN_CARD, v->n--);
    CHANGED(0, ZB_TORN_CARD, v->n = 1);
    CHANGED(0, ZB_WRONG_CARD, v->n -= BLOCK);
    CHANGED(0, ZB_WRONG_CARD, v->n = BLOCK);
    CHANGED(0, ZB_WRONG_CARD, (v->p = NULL, v->n = 0));
    CHANGED(1, ZB_OUT_OF_BOUNDS, v->n--);
    CHANGED(1, ZB_OUT_OF_BOUNDS, (v->p = NULL, v->n = 0));
    with_byte(w, c, c->view[0].n - 1, 0, ZB_TORN_CARD);
    with_byte(w, c, 0, 0, ZB_TORN_CARD);
    with_byte(w, c, 0, 1, ZB_WRONG_CARD);
    with_byte(w, c, BLOCK + 504, 1, ZB_WRONG_CARD);
    with_byte(w, c, c->view[0].n - 3, 1, ZB_WRONG_CARD);
}

static void reads(struct worker *w, uint8_t kind, int at_end) {
    struct call c = {0};
    for (size_t s = 0; s < ZB_LENGTH(shapes); s++) {
        prepare_read(w, &c, kind, &shapes[s], at_end);
        attempt(w, &c, ZB_DONE);
    }
    prepare_read(w, &c, kind, &(struct shape){65, 3}, at_end);
    attempt(w, &c, ZB_TOO_LARGE);
    prepare_read(w, &c, kind, &(struct shape){9, 14}, at_end);
    refused_reads(w, &c);
}

void card_work(struct worker *w) {
    for (int at_end = 0; at_end < 2; at_end++) {
        if (w->routine->form == WRITES_CARD) {
            writes(w, at_end);
        } else {
            reads(w, ZB_CARD_REAL, at_end);
            reads(w, ZB_CARD_COMPLEX, at_end);
        }
    }
}
