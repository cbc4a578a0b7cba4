/* The stack of every function, over the calls of calls.c and card_calls.c: each call is made on a stack of its own,
 * painted before, and what it has written to is counted, its arguments and its return address with it. It is under one
 * kilobyte. */
#define _GNU_SOURCE
#include "calls.h"
#include <stdio.h>
#include <string.h>
#include <ucontext.h>

enum { STACK = 1 << 15, DEEPEST = 1 << 13, PAINT = 0xA5, BOUND = 1023 };

static unsigned char stack[STACK];
static ucontext_t here, there;
static size_t deepest;

/* The call that is made, the frame that it is made from, and its answer. */
static const struct routine *routine;
static const struct call *call;
static unsigned char *frame;
static uint8_t answer;

static void make(void) {
    frame = __builtin_frame_address(0);
    answer = routine->run(call);
}

/* The call, on the painted stack. */
static uint8_t measured(const struct call *c) {
    unsigned char *low = stack + STACK - DEEPEST;
    memset(low, PAINT, DEEPEST - 256);
    call = c;
    check(getcontext(&there) == 0, "getcontext");
    there.uc_stack.ss_sp = stack;
    there.uc_stack.ss_size = STACK;
    there.uc_link = &here;
    makecontext(&there, make, 0);
    check(swapcontext(&here, &there) == 0, "swapcontext");
    while (*low == PAINT) low++;
    if ((size_t)(frame - low) > deepest) deepest = (size_t)(frame - low);
    return answer;
}

int main(void) {
    int failed = 0;
    unsigned calls = 0;
    size_t most = 0;
    for (int i = 0; i < ROUTINES; i++) {
        struct routine r = routines[i];
        struct worker w = worker(&r);
        routine = &routines[i];
        r.run = measured;
        deepest = 0;
        work(&w);
        int ok = w.wrong == 0 && deepest <= BOUND;
        failed += !ok;
        printf("%s: %zu bytes of stack: %s\n", r.name, deepest, ok ? "ok" : "FAILED");
        calls += w.calls;
        most = deepest > most ? deepest : most;
    }
    printf("%u calls, at most %zu bytes\n", calls, most);
    return failed != 0;
}
