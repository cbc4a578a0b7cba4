/* The floating-point environment that the header asks for: what it names goes wrong in another one, and no function
 * changes the one that it is called in. x86-64 alone, whose register MXCSR holds the environment. */
#define _GNU_SOURCE
#include "routines.h"
#include "test.h"
#include <fenv.h>
#include <signal.h>
#include <string.h>
#include <sys/resource.h>
#include <sys/wait.h>
#include <unistd.h>
#include <xmmintrin.h>

enum { FLUSH_TO_ZERO = 0x8000, DENORMALS_ARE_ZERO = 0x40, EXCEPTION_FLAGS = 0x3f };

/* A pivot of 1e-310, and what the solve of 1e-310 by it leaves in x. */
static uint8_t small_pivot(double *x) {
    const double a[] = {1e-310};
    *x = 1e-310;
    return zb_dtrsv(ZB_UPPER, ZB_NO_TRANS, ZB_NON_UNIT, ZB_ARRAY_BY_ROWS(a, 1, 1, 1), ZB_VECTOR(x, 1, 1, 1));
}

/* 1e-310 by 1/2 */
static double small_product(void) {
    const double a[] = {1e-310}, x[] = {0.5};
    double y[1];
    zb_dgemv(ZB_NO_TRANS, 1, ZB_ARRAY_BY_ROWS(a, 1, 1, 1), ZB_ARRAY_VECTOR(x, 1, 1), 0, ZB_ARRAY_VECTOR(y, 1, 1));
    return y[0];
}

static double third(void) {
    const double a[] = {3};
    double x[] = {1};
    zb_dtrsv(ZB_UPPER, ZB_NO_TRANS, ZB_NON_UNIT, ZB_ARRAY_BY_ROWS(a, 1, 1, 1), ZB_ARRAY_VECTOR(x, 1, 1));
    return x[0];
}

/* By bits: with denormals-are-zero on 5e-311 would equal 0. */
static void as_a_program_starts(void) {
    const double half = 5e-311;
    double x, product = small_product();
    uint8_t answer = small_pivot(&x);
    expect("a pivot of 1e-310 divides", answer == ZB_DONE && x == 1);
    expect("1e-310 by 1/2 is 5e-311", memcmp(&product, &half, sizeof half) == 0);
    expect("1 by 3 is rounded to nearest", third() == 1.0 / 3);
}

static void otherwise(void) {
    double x, product, up;
    unsigned before = _mm_getcsr();
    _mm_setcsr(before | FLUSH_TO_ZERO | DENORMALS_ARE_ZERO);
    uint8_t answer = small_pivot(&x);
    product = small_product();
    _mm_setcsr(before);
    expect("flushed to zero: a pivot of 1e-310 is zero", answer == ZB_SINGULAR && x == 1e-310);
    expect("flushed to zero: 1e-310 by 1/2 is 0", product == 0);
    fesetround(FE_UPWARD);
    up = third();
    fesetround(FE_TONEAREST);
    expect("rounded up: 1 by 3 is larger", up > 1.0 / 3);
}

/* 0 by infinity, with the exception for it unmasked, in a process of its own */
static void unmasked(void) {
    const double a[] = {0}, x[] = {INFINITY};
    double y[1];
    int status = 0;
    pid_t child = fork();
    if (child == 0) {
        struct rlimit no_core = {0, 0};
        setrlimit(RLIMIT_CORE, &no_core);
        feenableexcept(FE_INVALID);
        _exit(zb_dgemv(ZB_NO_TRANS, 1, ZB_ARRAY_BY_ROWS(a, 1, 1, 1), ZB_ARRAY_VECTOR(x, 1, 1), 0,
                       ZB_ARRAY_VECTOR(y, 1, 1)));
    }
    expect("unmasked: 0 by infinity ends the program",
           waitpid(child, &status, 0) == child && WIFSIGNALED(status) && WTERMSIG(status) == SIGFPE);
}

/* The call, in an environment that no program starts with; is that left as it is? */
static int leaves_alone(const struct routine *r, const struct call *c) {
    unsigned before = _mm_getcsr(), other = (before | FLUSH_TO_ZERO | _MM_ROUND_UP) & ~(unsigned)EXCEPTION_FLAGS;
    _mm_setcsr(other);
    uint8_t answer = r->run(c);
    int same = (_mm_getcsr() & ~(unsigned)EXCEPTION_FLAGS) == other;
    _mm_setcsr(before);
    return answer == ZB_DONE && same;
}

/* Every function on elements that are 1; what is written to a card is then read. */
static void left_alone(void) {
    int same = 1;
    for (int i = 0; i < OVER_VIEWS; i++) {
        double numbers[3][2] = {{1, 1}, {1, 1}, {1, 1}};
        float floats[3][2] = {{1, 1}, {1, 1}, {1, 1}};
        struct call c = {0};
        for (int k = 0; k < 3; k++) {
            void *p = routines[i].width == sizeof(float) ? (void *)floats[k] : numbers[k];
            c.view[k] = (struct view){p, 2, 0, 1, 1, 1, 1, routines[i].width};
        }
        same &= leaves_alone(&routines[i], &c);
    }
    for (int i = OVER_VIEWS; i < ROUTINES; i++) {
        static uint8_t card[ZB_CARD_LENGTH(2)];
        double numbers[] = {1, 1};
        uint64_t words[SHAPE / sizeof(uint64_t)];
        struct view s = {numbers, 2, 0, 1, 1, 1, 1, 8}, k = {card, sizeof card, 0, 1, 1, 1, 1, 1};
        struct call c = {{0}, {routines[i].form == READS_CARD ? k : s, routines[i].form == READS_CARD ? s : k}};
        c.view[2].p = words;
        same &= leaves_alone(&routines[i], &c);
    }
    expect("every function leaves the environment as it is", same);
}

int main(void) {
    as_a_program_starts();
    otherwise();
    unmasked();
    left_alone();
    return failures() != 0;
}
