#include "by_hand.h"
#include <string.h>

uint64_t bits(double x) {
    uint64_t u;
    memcpy(&u, &x, sizeof u);
    return u;
}

double number(uint64_t bits) {
    double x;
    memcpy(&x, &bits, sizeof x);
    return x;
}

/* The low bytes of a number, the lowest first. */
static void store(uint8_t *p, uint64_t value, int bytes) {
    for (int i = 0; i < bytes; i++) p[i] = (uint8_t)(value >> 8 * i);
}

void seal(uint8_t *block) {
    unsigned sum = 0;
    for (int i = 0; i < BLOCK - 2; i++) sum += block[i];
    store(block + BLOCK - 2, sum, 2);
}

size_t by_hand(uint8_t *card, uint8_t kind, uint64_t rows, uint64_t cols, const double *numbers) {
    uint64_t count = rows * cols * (kind == ZB_CARD_COMPLEX ? 2 : 1),
             blocks = count / IN_BLOCK + (count % IN_BLOCK != 0);
    memset(card, 0, (size_t)(blocks + 1) * BLOCK);
    memcpy(card, "ARMM", 4);
    store(card + 4, rows, 2);
    store(card + 6, cols, 2);
    card[8] = kind;
    for (uint64_t i = 0; numbers && i < count; i++)
        store(card + BLOCK * (1 + i / IN_BLOCK) + 8 * (i % IN_BLOCK), bits(numbers[i]), 8);
    for (uint64_t k = 1; k <= blocks; k++) store(card + BLOCK * k + 504, k, 2);
    for (uint64_t k = 0; k <= blocks; k++) seal(card + BLOCK * k);
    return (size_t)(blocks + 1) * BLOCK;
}
