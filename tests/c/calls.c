/* Calls of a function over sizes, layouts and flags, accepted and refused, on slabs that end at, and that begin after, a
 * page that may not be touched. Slabs that are only read, and the target of a refused call, may not be written. */
#define _GNU_SOURCE
#include "calls.h"
#include <stdio.h>
#include <stdlib.h>
#include <string.h>
#include <sys/mman.h>
#include <unistd.h>

/* Bytes for a slab between two pages that may not be touched. */
enum { ROOM = 1 << 18 };

struct sizes {
    uint64_t m, n, k;
};

/* By columns or by rows; the step inside a line, the gap between lines; rows and columns backwards or not. */
struct layout {
    int by_cols, step, gap, back_rows, back_cols;
};

static const struct sizes all_sizes[] = {{2, 3, 4},  {1, 1, 1},    {7, 8, 9}, {8, 8, 8}, {9, 17, 5}, {16, 1, 33},
                                         {5, 31, 2}, {64, 64, 64}, {0, 3, 2}, {3, 0, 2}, {3, 2, 0},  {0, 0, 0}};

static const struct layout layouts[] = {{0, 1, 0, 0, 0}, {1, 1, 0, 0, 0}, {0, 1, 3, 1, 0},
                                        {1, 1, 1, 0, 1}, {0, 2, 0, 1, 1}, {1, 1, 0, 1, 1}};

enum { SIZES = sizeof all_sizes / sizeof *all_sizes, LAYOUTS = sizeof layouts / sizeof *layouts };

void check(int ok, const char *what) {
    if (ok) return;
    perror(what);
    exit(BROKEN);
}

static unsigned char *room(void) {
    size_t page = (size_t)sysconf(_SC_PAGESIZE);
    unsigned char *p = mmap(NULL, ROOM + 2 * page, PROT_NONE, MAP_PRIVATE | MAP_ANONYMOUS, -1, 0);
    check(p != MAP_FAILED, "mmap");
    return p + page;
}

void protect(struct worker *w, int i, int protection) {
    check(mprotect(w->room[i], ROOM, protection) == 0, "mprotect");
}

int views_of(const struct routine *r) { return r->form == OF_VIEWS ? (int)(strlen(r->views) + 1) / 4 : 3; }

int first_target(const struct routine *r) { return r->form == OF_VIEWS ? views_of(r) - 1 : 1; }

size_t bytes_of(const struct view *v) { return v->n * v->width; }

static uint64_t extent(char letter, const struct call *c, const struct sizes *s) {
    if (letter == 's') letter = c->flag[0] == ZB_LEFT ? 'm' : 'n';
    return letter == 'm' ? s->m : letter == 'n' ? s->n : letter == 'k' ? s->k : 1;
}

/* A view's shape: exchanged where its flag says so; a vector is n by 1, or 1 by n in a layout by columns. */
static void shape(struct view *v, const char *spec, const struct call *c, const struct sizes *s, int by_cols) {
    int transposed = spec[2] == '-' ? spec[1] == '1' && by_cols : c->flag[spec[2] - '0'] != ZB_NO_TRANS;
    v->rows = extent(spec[transposed], c, s);
    v->cols = extent(spec[!transposed], c, s);
}

/* Start, strides and length, so that the view touches the slab's first element and its last. */
static void lay(struct view *v, const struct layout *l, size_t parts) {
    int64_t rows = (int64_t)v->rows - 1, cols = (int64_t)v->cols - 1, inner = l->by_cols ? rows : cols;
    int64_t lead = l->step * (inner > 0 ? inner : 0) + 1 + l->gap;
    v->rs = l->by_cols ? l->step : lead;
    v->cs = l->by_cols ? lead : l->step;
    v->n = rows < 0 || cols < 0 ? 0 : parts * (size_t)(rows * v->rs + cols * v->cs + 1);
    v->start = v->n == 0 ? 0 : (uint64_t)((l->back_rows ? rows * v->rs : 0) + (l->back_cols ? cols * v->cs : 0));
    if (l->back_rows) v->rs = -v->rs;
    if (l->back_cols) v->cs = -v->cs;
}

/* Fills the slab with numbers from 1 up to 2, or with bytes. */
static void fill(struct worker *w, const struct view *v) {
    double *d = v->p;
    float *f = v->p;
    unsigned char *b = v->p;
    for (size_t i = 0; i < v->n; i++) {
        w->numbers = w->numbers * 6364136223846793005u + 1442695040888963407u;
        double x = 1 + (double)(w->numbers >> 40) / (1 << 24);
        if (v->width == sizeof *d) d[i] = x;
        else if (v->width == sizeof *f) f[i] = (float)x;
        else b[i] = (unsigned char)(w->numbers >> 56);
    }
}

void place(struct worker *w, int i, struct view *v, int at_end) {
    check(bytes_of(v) <= ROOM, "a slab larger than its room");
    v->p = at_end ? w->room[i] + ROOM - bytes_of(v) : v->n > 0 ? w->room[i] : NULL;
    protect(w, i, PROT_READ | PROT_WRITE);
    fill(w, v);
    protect(w, i, PROT_READ);
}

/* The views of a call, their slabs filled, at the end of their rooms or at the beginning. */
static void prepare(struct worker *w, struct call *c, const struct sizes *s, int layout, int at_end) {
    const struct routine *r = w->routine;
    for (int i = 0; i < views_of(r); i++) {
        struct view *v = &c->view[i];
        const struct layout *l = &layouts[(layout + i) % LAYOUTS];
        shape(v, r->views + 4 * i, c, s, l->by_cols);
        lay(v, l, r->parts);
        v->width = r->width;
        place(w, i, v, at_end);
    }
}

void attempt(struct worker *w, const struct call *c, uint8_t answer) {
    int first = first_target(w->routine), end = views_of(w->routine);
    for (int k = first; k < end && answer == ZB_DONE; k++) protect(w, k, PROT_READ | PROT_WRITE);
    w->wrong += w->routine->run(c) != answer;
    w->calls++;
    for (int k = first; k < end; k++)
        for (size_t i = 0; i < bytes_of(&c->view[k]); i++)
            w->sum = (w->sum ^ ((const unsigned char *)c->view[k].p)[i]) * 1099511628211u;
}

/* The next setting of the flags; 0 when all were there. */
static int next(const char *flags, uint8_t *flag) {
    for (int i = 0; flags[i]; i++) {
        if (++flag[i] < flags[i] - '0') return 1;
        flag[i] = 0;
    }
    return 0;
}

static void accepted(struct worker *w, int layout, int at_end) {
    struct call c = {0};
    for (int s = 0; s < SIZES; s++) {
        do {
            prepare(w, &c, &all_sizes[s], layout, at_end);
            attempt(w, &c, ZB_DONE);
        } while (next(w->routine->flags, c.flag));
    }
}

static void refused(struct worker *w, const struct call *c) {
    int target = views_of(w->routine) - 1;
    for (int i = 0; i <= target; i++) {
        CHANGED(i, ZB_TOO_LARGE, v->rows = 65);
        CHANGED(i, ZB_TOO_LARGE, v->cols = 65);
        CHANGED(i, ZB_OUT_OF_BOUNDS, v->start++);
        CHANGED(i, ZB_OUT_OF_BOUNDS, v->start--);
        CHANGED(i, ZB_OUT_OF_BOUNDS, v->n--);
        CHANGED(i, ZB_OUT_OF_BOUNDS, (v->p = NULL, v->n = 0));
    }
    CHANGED(target, ZB_SHAPE_MISMATCH, v->rows--);
    CHANGED(target, ZB_OVERLAP, v->rs = v->cs = 0);
    struct call misled = *c;
    misled.flag[0] = 3;
    attempt(w, &misled, ZB_SHAPE_MISMATCH);
}

static void view_work(struct worker *w) {
    for (int layout = 0; layout < LAYOUTS; layout++)
        for (int at_end = 0; at_end < 2; at_end++) {
            struct call c = {0};
            accepted(w, layout, at_end);
            prepare(w, &c, &(struct sizes){3, 4, 5}, layout, at_end);
            refused(w, &c);
        }
}

void *work(void *argument) {
    struct worker *w = argument;
    if (w->routine->form == OF_VIEWS) view_work(w);
    else card_work(w);
    return NULL;
}

struct worker worker(const struct routine *r) {
    return (struct worker){.routine = r, .room = {room(), room(), room()}};
}
