/* The functions behind one signature: the 45 of the routines, then the three for cards. */
#ifndef ROUTINES_H
#define ROUTINES_H

#include "zirve_blas.h"

/* The width is that of one of the n numbers, in bytes. */
struct view {
    void *p;
    size_t n;
    uint64_t start, rows, cols;
    int64_t rs, cs;
    size_t width;
};

/* The target of a routine is its last view. A function for cards has three slabs: what it reads, with the shape of what
 * is written to a card, then what it writes, then the words that it hands back. */
struct call {
    uint8_t flag[4];
    struct view view[3];
};

enum form { OF_VIEWS, WRITES_CARD, READS_CARD };

struct routine {
    const char *name;
    uint8_t (*run)(const struct call *);
    size_t width;      /* of a number, in bytes */
    size_t parts;      /* numbers that make an element */
    const char *flags; /* how many values each flag has */
    const char *views; /* of each view its rows, its columns, and the flag that exchanges the two (- none); s is the
                        * order of a matrix that stands at the side that flag 0 names */
    enum form form;
};

/* The words of a card's shape as they are handed back: rows, columns, and the kind in the last of the bytes. */
enum { SHAPE = 24, KIND_BYTE = SHAPE - 1 };

enum { OVER_VIEWS = 45, ROUTINES = OVER_VIEWS + 3 };

extern const struct routine routines[ROUTINES];

#endif
