/* What the tests share that make every function's calls. */
#ifndef CALLS_H
#define CALLS_H

#include "routines.h"

/* What one thread works with: a room for each slab, and what it has seen. */
struct worker {
    const struct routine *routine;
    unsigned char *room[3];
    uint64_t numbers; /* the state of the numbers that fill slabs */
    uint64_t sum;     /* of all bytes that targets held after the calls */
    unsigned calls, wrong;
};

/* The exit status of a test that could not be run. */
enum { BROKEN = 4 };

void check(int ok, const char *what);

/* How many slabs a call has, and which is the first that it writes. */
int views_of(const struct routine *r);
int first_target(const struct routine *r);

/* The bytes of a view's slab. */
size_t bytes_of(const struct view *v);

/* Places slab i of a call at the end of its room or at the beginning, and fills it; it may be read then. A slab of no
 * numbers is the page behind the room, or NULL. */
void place(struct worker *w, int i, struct view *v, int at_end);

/* Makes the call, which must give this answer; a refused one with its targets read-only. */
void attempt(struct worker *w, const struct call *c, uint8_t answer);

/* Attempts the call c of the worker w with view i changed. */
#define CHANGED(i, answer, change)         \
    do {                                   \
        struct call changed = *c;          \
        struct view *v = &changed.view[i]; \
        change;                            \
        attempt(w, &changed, answer);      \
    } while (0)

/* Lets room i be written, or only read. */
void protect(struct worker *w, int i, int protection);

/* All calls of a function for cards. */
void card_work(struct worker *w);

/* A worker for the routine, and all its calls; its argument is the worker. */
struct worker worker(const struct routine *r);
void *work(void *argument);

#endif
