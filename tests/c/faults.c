/* Hard faults: every function on slabs beside pages that may not be touched, or not be written (calls.c, card_calls.c).
 * The same calls in two threads, on slabs of their own, leave the same bits. Each function runs in a process of its
 * own, and so does each with a planted fault, which must be found. */
#define _GNU_SOURCE
#include "calls.h"
#include <pthread.h>
#include <signal.h>
#include <stdio.h>
#include <string.h>
#include <sys/mman.h>
#include <sys/resource.h>
#include <sys/wait.h>
#include <unistd.h>

/* What became of a function's run: one of these, or BROKEN. */
enum outcome { FINE, ANSWERS, BITS, FAULT };
static const char *const words[] = {"ok", "FAILED, answers", "FAILED, bits of two threads", "FAILED, fault",
                                    "FAILED to run"};

/* The function in one thread, then in two. */
static enum outcome run(const struct routine *r, unsigned *calls) {
    struct worker one = worker(r), two[2] = {worker(r), worker(r)};
    pthread_t thread[2];
    work(&one);
    if (one.wrong > 0) return ANSWERS;
    for (int i = 0; i < 2; i++) check(pthread_create(&thread[i], NULL, work, &two[i]) == 0, "pthread_create");
    for (int i = 0; i < 2; i++) check(pthread_join(thread[i], NULL) == 0, "pthread_join");
    *calls += one.calls + two[0].calls + two[1].calls;
    if (two[0].wrong + two[1].wrong > 0) return ANSWERS;
    return one.sum == two[0].sum && one.sum == two[1].sum ? FINE : BITS;
}

/* The run in a process of its own; the calls are counted in memory that it shares. */
static enum outcome outcome(const struct routine *r, unsigned *calls) {
    int status;
    fflush(stdout);
    pid_t child = fork();
    check(child >= 0, "fork");
    if (child == 0) {
        struct rlimit no_core = {0, 0};
        setrlimit(RLIMIT_CORE, &no_core);
        signal(SIGSEGV, SIG_DFL);
        _exit(run(r, calls));
    }
    check(waitpid(child, &status, 0) == child, "waitpid");
    if (WIFSIGNALED(status) && WTERMSIG(status) == SIGSEGV) return FAULT;
    return WIFEXITED(status) ? WEXITSTATUS(status) : BROKEN;
}

/* ---- planted faults */

/* What a fault does with a view of a call, and with the answer. */
typedef void fault(const struct view *v, uint8_t *answer);

static struct {
    const struct routine *routine;
    int view;
    fault *fault;
} plant;

static volatile unsigned char seen;

/* The planted routine's function, with the fault beside it. */
static uint8_t stand_in(const struct call *c) {
    const struct view *v = &c->view[plant.view];
    uint8_t answer = plant.routine->run(c);
    if (v->n > 0) plant.fault(v, &answer);
    return answer;
}

static void reads_past_the_end(const struct view *v, uint8_t *answer) {
    (void)answer;
    seen = ((volatile unsigned char *)v->p)[bytes_of(v)];
}

static void reads_before_the_beginning(const struct view *v, uint8_t *answer) {
    (void)answer;
    seen = ((volatile unsigned char *)v->p)[-1];
}

static void writes(const struct view *v, uint8_t *answer) {
    (void)answer;
    ((volatile unsigned char *)v->p)[0] = seen;
}

static void writes_when_refused(const struct view *v, uint8_t *answer) {
    if (*answer != ZB_DONE) writes(v, answer);
}

static void writes_a_count(const struct view *v, uint8_t *answer) {
    static unsigned count;
    count++;
    if (*answer == ZB_DONE) memcpy(v->p, &count, sizeof count);
}

static void answers_done(const struct view *v, uint8_t *answer) {
    (void)v;
    *answer = ZB_DONE;
}

/* Each in every view that is read, in every target, or in both. */
static const struct {
    const char *name;
    fault *fault;
    int in_read, in_target;
    enum outcome outcome;
} faults[] = {
    {"read past a slab's end", reads_past_the_end, 1, 1, FAULT},
    {"read before a slab's beginning", reads_before_the_beginning, 1, 1, FAULT},
    {"write to a slab that is read", writes, 1, 0, FAULT},
    {"write to a refused call's target", writes_when_refused, 0, 1, FAULT},
    {"count kept from call to call", writes_a_count, 0, 1, BITS},
    {"refusal not answered", answers_done, 0, 1, ANSWERS},
};

/* Plants fault k in every function; those that were not found. */
static int planted(size_t k, unsigned *calls) {
    int all = 0, found = 0;
    plant.fault = faults[k].fault;
    for (int i = 0; i < ROUTINES; i++) {
        int target = first_target(&routines[i]);
        struct routine r = routines[i];
        plant.routine = &routines[i];
        r.run = stand_in;
        for (plant.view = 0; plant.view < views_of(&r); plant.view++) {
            if (!(plant.view < target ? faults[k].in_read : faults[k].in_target)) continue;
            all++;
            found += outcome(&r, calls) == faults[k].outcome;
        }
    }
    printf("planted %s: found in %d of %d: %s\n", faults[k].name, found, all, found == all ? "ok" : "FAILED");
    return all - found;
}

int main(void) {
    int failed = 0;
    unsigned *calls = mmap(NULL, 2 * sizeof *calls, PROT_READ | PROT_WRITE, MAP_SHARED | MAP_ANONYMOUS, -1, 0);
    check(calls != MAP_FAILED, "mmap");
    for (int i = 0; i < ROUTINES; i++) {
        enum outcome o = outcome(&routines[i], &calls[0]);
        printf("%s beside pages that may not be touched: %s\n", routines[i].name, words[o]);
        failed += o != FINE;
    }
    printf("%u calls\n", calls[0]);
    for (size_t k = 0; k < sizeof faults / sizeof *faults; k++) failed += planted(k, &calls[1]);
    return failed != 0;
}
