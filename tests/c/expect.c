#include "test.h"
#include <stdio.h>

static int failed;

void expect(const char *what, int ok) {
    printf("%s: %s\n", what, ok ? "ok" : "FAILED");
    failed += !ok;
}

int failures(void) { return failed; }
