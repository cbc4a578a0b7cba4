/* Calls the functions through the C interface: the results are held to document 01's worked examples, cards to their
 * form. */
#include "test.h"

int main(void) {
    products();
    rank_updates();
    triangular();
    cards();
    return failures() != 0;
}
