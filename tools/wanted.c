/* Decides which keys are wanted for a window, naively, to check the proved plans against.
 *
 * Reads lines "d theta low high low high ..." and answers each with the count of ranges and their ends.
 * A key is wanted when some vector inside the window has it. With up to MOST_VECTORS vectors inside, every one of them is
 * tried. With more, two vectors are tried for every key of a place: a vector whose least measure is v, first at place j, has
 * at least v + 1 before j and at least v behind; lowering each measure to the least that is allowed keeps it inside and its
 * least measure as it is, and lowers its greatest. So if any such vector is on the low edge, the least one is. The high edge
 * likewise. Where both ways are open, both are gone and must agree.
 */
#include <stdio.h>
#include <stdlib.h>
#include <string.h>

enum { GRID = 65536, MOST_PLACES = 16, MOST_VECTORS = 300000 };

static int places, theta, low[MOST_PLACES], high[MOST_PLACES];
static unsigned char wanted[MOST_PLACES * GRID], again[MOST_PLACES * GRID];

static int key_of(const int *x) {
    int p = 0, q = 0;
    for (int i = 1; i < places; i++) {
        if (x[i] < x[p]) p = i;
        if (x[i] > x[q]) q = i;
    }
    return x[p] + theta < GRID - 1 - x[q] ? GRID * p + x[p] : GRID * q + x[q];
}

static int inside(const int *x) {
    for (int i = 0; i < places; i++)
        if (x[i] < low[i] || x[i] > high[i]) return 0;
    return 1;
}

static void try_all_vectors(unsigned char *mark) {
    int x[MOST_PLACES];
    memcpy(x, low, sizeof x);
    for (;;) {
        mark[key_of(x)] = 1;
        int i = 0;
        while (i < places && x[i] == high[i]) { x[i] = low[i]; i++; }
        if (i == places) return;
        x[i]++;
    }
}

static void try_two_vectors(unsigned char *mark) {
    int x[MOST_PLACES];
    for (int j = 0; j < places; j++)
        for (int v = low[j]; v <= high[j]; v++) {
            for (int i = 0; i < places; i++) { int m = v + (i < j); x[i] = m > low[i] ? m : low[i]; }
            if (inside(x) && key_of(x) == GRID * j + v) mark[GRID * j + v] = 1;
            for (int i = 0; i < places; i++) { int m = v - (i < j); x[i] = m < high[i] ? m : high[i]; }
            if (inside(x) && key_of(x) == GRID * j + v) mark[GRID * j + v] = 1;
        }
}

static void print_ranges(void) {
    static int from[2 * MOST_PLACES * GRID], upto[2 * MOST_PLACES * GRID];
    int count = 0;
    for (int j = 0; j < places; j++)
        for (int v = 0; v < GRID; v++) {
            int key = GRID * j + v;
            if (!wanted[key]) continue;
            if (v > 0 && wanted[key - 1]) upto[count - 1] = key;
            else { from[count] = upto[count] = key; count++; }
        }
    printf("%d", count);
    for (int i = 0; i < count; i++) printf(" %d %d", from[i], upto[i]);
    printf("\n");
    fflush(stdout);
}

int main(void) {
    while (scanf("%d %d", &places, &theta) == 2) {
        double vectors = 1;
        for (int i = 0; i < places; i++) {
            if (scanf("%d %d", &low[i], &high[i]) != 2) return 2;
            vectors *= high[i] - low[i] + 1;
        }
        memset(wanted, 0, sizeof wanted);
        try_two_vectors(wanted);
        if (vectors <= MOST_VECTORS) {
            memset(again, 0, sizeof again);
            try_all_vectors(again);
            if (memcmp(wanted, again, sizeof wanted)) {
                fprintf(stderr, "wanted: the two ways differ\n");
                return 1;
            }
        }
        print_ranges();
    }
    return 0;
}
