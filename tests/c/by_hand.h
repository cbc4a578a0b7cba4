/* Cards made by the tests themselves, byte by byte. */
#ifndef BY_HAND_H
#define BY_HAND_H

#include "zirve_blas.h"

enum { BLOCK = 512, IN_BLOCK = 63 };

/* A number's bits, and the number of these bits. */
uint64_t bits(double x);
double number(uint64_t bits);

/* Makes the sum of a block. */
void seal(uint8_t *block);

/* Makes a card of the numbers' bits as they are, of zeros where numbers is NULL; gives its length. Past 65,535 a
 * block's number is what two bytes hold of it. */
size_t by_hand(uint8_t *card, uint8_t kind, uint64_t rows, uint64_t cols, const double *numbers);

#endif
