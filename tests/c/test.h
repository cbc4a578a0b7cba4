/* What the C tests share. */
#ifndef TEST_H
#define TEST_H

#include "zirve_blas.h"
#include <math.h>

/* Prints a line, and counts what fails. */
void expect(const char *what, int ok);
int failures(void);

void products(void);
void rank_updates(void);
void triangular(void);
void cards(void);

#endif
