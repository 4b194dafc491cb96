/* The same network in doubles, by a sparse direct solve: CHOLMOD of SuiteSparse. Nothing about its result is certain.
 *
 *     cc -O2 direct.c -o direct -lcholmod -lm && ./direct NAME.net [TURNS]
 *
 * It reads what the benchmark's word `network` prints, and prints the least time of some turns in nanoseconds: putting
 * the matrix together, ordering, factoring, solving, and the currents of all elements.
 */
#include "network.h"
#include <suitesparse/cholmod.h>

static double siemens[MOST], volts[MOST];

/* The conductances and the voltages of the elements in doubles. */
static void take_doubles(void) {
    for (int e = 0; e < count; e++) {
        siemens[e] = times[e] * 1e6 / micro_ohm[e];
        volts[e] = nanovolts[e] * 1e-9;
    }
}

/* The currents of all elements, added up. */
static double currents(cholmod_common *c) {
    cholmod_triplet *entries = cholmod_allocate_triplet(nodes, nodes, nodes + 3 * (size_t)count, -1, CHOLMOD_REAL, c);
    cholmod_dense *right = cholmod_zeros(nodes, 1, CHOLMOD_REAL, c);
    int *row = entries->i, *column = entries->j, place = 0;
    double *value = entries->x, *charge = right->x, sum = 0;
    for (int e = 0; e < count; e++) {
        row[place] = column[place] = from[e];
        value[place++] = siemens[e];
        charge[from[e]] -= siemens[e] * volts[e];
        if (to[e] == EARTH) continue;
        row[place] = column[place] = to[e];
        value[place++] = siemens[e];
        row[place] = from[e] > to[e] ? from[e] : to[e];
        column[place] = from[e] > to[e] ? to[e] : from[e];
        value[place++] = -siemens[e];
        charge[to[e]] += siemens[e] * volts[e];
    }
    /* a node without an element has the potential 0 */
    for (int k = 0; k < nodes; k++) {
        if (live[k]) continue;
        row[place] = column[place] = k;
        value[place++] = 1;
    }
    entries->nnz = place;
    cholmod_sparse *matrix = cholmod_triplet_to_sparse(entries, place, c);
    cholmod_factor *factor = cholmod_analyze(matrix, c);
    cholmod_factorize(matrix, factor, c);
    cholmod_dense *potentials = cholmod_solve(CHOLMOD_A, factor, right, c);
    double *x = potentials->x;
    for (int e = 0; e < count; e++)
        sum += siemens[e] * (x[from[e]] - (to[e] == EARTH ? 0 : x[to[e]]) + volts[e]);
    cholmod_free_dense(&potentials, c);
    cholmod_free_factor(&factor, c);
    cholmod_free_sparse(&matrix, c);
    cholmod_free_dense(&right, c);
    cholmod_free_triplet(&entries, c);
    return sum;
}

int main(int argc, char **argv) {
    cholmod_common common;
    int64_t least = INT64_MAX;
    volatile double sum = 0;
    if (argc < 2) return 2;
    read_network(argv[1]);
    take_doubles();
    cholmod_start(&common);
    for (int turn = argc > 2 ? atoi(argv[2]) : 15; turn > 0; turn--) {
        int64_t start = now();
        sum += currents(&common);
        int64_t spent = now() - start;
        if (spent < least) least = spent;
    }
    cholmod_finish(&common);
    printf("%ld\n", (long)least);
    return 0;
}
