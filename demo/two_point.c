/* The two-point path through the C interface: two points are taught, a line through them is fitted by a forward and a
 * backward solve, and its waypoints are printed, beside those of a backward solve that ends one row short. Then three
 * calls that are refused. */
#include "zirve_blas.h"
#include <stdio.h>

static const char *sentence(uint8_t answer) {
    static const char *const all[] = {
        "done",
        "a view has more than 64 rows or columns",
        "some element of a view is outside its slab",
        "the shapes do not go together",
        "two elements of the target share a place",
        "a pivot is zero; what was solved before it stays",
    };
    return all[answer];
}

static void report(const char *what, uint8_t answer) {
    printf("%-31sanswer %d: %s\n", what, answer, sentence(answer));
}

static void pose(const double *p) {
    printf("%7.0f%7.0f%7.0f", p[0], p[1], p[2]);
}

static void pair(const double *line) {
    pose(line);
    printf("   /");
    pose(line + 3);
    printf("\n");
}

/* op(A) X = B solved in the place of B, two rows of three, seen from start on with the given stride from row to row */
static uint8_t solve(uint8_t uplo, uint8_t diag, const double *a, double *b, uint64_t start, int64_t stride) {
    return zb_dtrsm(ZB_LEFT, uplo, ZB_NO_TRANS, diag, 1.0, ZB_BY_ROWS(a, 4, 2, 2, 2), b, 6, start, 2, 3, stride, 1);
}

/* the line at the stations 2 to 6 */
static uint8_t waypoints(const double *line, double *way) {
    static const double stations[] = {1, 2, 1, 3, 1, 4, 1, 5, 1, 6};
    return zb_dgemm(ZB_NO_TRANS, ZB_NO_TRANS, 1.0, ZB_ARRAY_BY_ROWS(stations, 5, 2, 2), ZB_BY_ROWS(line, 6, 2, 3, 3),
                    0.0, ZB_BY_ROWS(way, 15, 5, 3, 3));
}

static void follow(const double *taught) {
    /* the factors of [[1, 2], [1, 6]]: a line's values at the two stations */
    static const double lower[] = {1, 0, 1, 1}, upper[] = {1, 2, 0, 4};
    double line[6], shorter[6], way[15], wrong[15];
    for (int k = 0; k < 6; k++) line[k] = taught[k];
    report("forward solve, Lower, Unit", solve(ZB_LOWER, ZB_UNIT, lower, line, 0, 3));
    for (int k = 0; k < 3; k++) shorter[k] = line[k];
    report("backward solve, Upper, NonUnit", solve(ZB_UPPER, ZB_NON_UNIT, upper, line, 0, 3));
    for (int k = 3; k < 6; k++) shorter[k] = line[k];
    report("waypoints, gemm", waypoints(line, way));
    waypoints(shorter, wrong);
    printf("\nWaypoints                            one row short\n");
    for (int s = 0; s < 5; s++) {
        printf("station %d ", s + 2);
        pose(way + 3 * s);
        printf("      ");
        pose(wrong + 3 * s);
        printf("\n");
    }
}

static void refused(const char *what, const double *upper, uint64_t start, int64_t stride) {
    double line[] = {10, 40, 6, 20, -20, 8};
    report(what, solve(ZB_UPPER, ZB_NON_UNIT, upper, line, start, stride));
    pair(line);
}

int main(void) {
    static const double taught[] = {10, 40, 6, 30, 20, 14}, before[] = {10, 40, 6, 20, -20, 8};
    static const double upper[] = {1, 2, 0, 4}, without_first[] = {0, 2, 0, 4};
    printf("Two points are taught, each at a station of the rail, counted from home (x, y, z):\nstation 2 ");
    pose(taught);
    printf("\nstation 6 ");
    pose(taught + 3);
    printf("\n\nThe line through them\n");
    follow(taught);
    printf("\nRefused calls: the target before them, and after each\n");
    pair(before);
    refused("off-slab view, start 1", upper, 1, 3);
    refused("overlapping target, stride 2", upper, 0, 2);
    refused("first pivot zero", without_first, 0, 3);
    return 0;
}
