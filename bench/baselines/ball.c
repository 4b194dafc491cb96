/* The same network by a verified solver: Arb's balls at 128 bits, a dense approximate solve with error bounds.
 *
 *     cc -O2 ball.c -o ball -lflint-arb -lflint && ./ball NAME.net [TURNS]
 *
 * It reads what the benchmark's word `network` prints, and prints the least time of some turns in nanoseconds: putting
 * the matrix together, solving, and the currents of all elements.
 */
#include "network.h"
#include <arb.h>
#include <arb_mat.h>

enum { BITS = 128 };

/* Whether the solve and the currents of all elements came out. */
static int currents(void) {
    arb_mat_t matrix, right, potentials;
    arb_t siemens, volts, part;
    arb_mat_init(matrix, nodes, nodes);
    arb_mat_init(right, nodes, 1);
    arb_mat_init(potentials, nodes, 1);
    arb_init(siemens);
    arb_init(volts);
    arb_init(part);
    for (int e = 0; e < count; e++) {
        arb_set_si(siemens, times[e] * 1000000);
        arb_div_si(siemens, siemens, micro_ohm[e], BITS);
        arb_mul_si(part, siemens, nanovolts[e], BITS);
        arb_add(arb_mat_entry(matrix, from[e], from[e]), arb_mat_entry(matrix, from[e], from[e]), siemens, BITS);
        arb_sub(arb_mat_entry(right, from[e], 0), arb_mat_entry(right, from[e], 0), part, BITS);
        if (to[e] == EARTH) continue;
        arb_add(arb_mat_entry(matrix, to[e], to[e]), arb_mat_entry(matrix, to[e], to[e]), siemens, BITS);
        arb_sub(arb_mat_entry(matrix, from[e], to[e]), arb_mat_entry(matrix, from[e], to[e]), siemens, BITS);
        arb_sub(arb_mat_entry(matrix, to[e], from[e]), arb_mat_entry(matrix, to[e], from[e]), siemens, BITS);
        arb_add(arb_mat_entry(right, to[e], 0), arb_mat_entry(right, to[e], 0), part, BITS);
    }
    /* a node without an element has the potential 0 */
    for (int k = 0; k < nodes; k++)
        if (!live[k]) arb_one(arb_mat_entry(matrix, k, k));
    int solved = arb_mat_solve(potentials, matrix, right, BITS);
    for (int e = 0; solved && e < count; e++) {
        arb_set_si(siemens, times[e] * 1000000);
        arb_div_si(siemens, siemens, micro_ohm[e], BITS);
        arb_set(volts, arb_mat_entry(potentials, from[e], 0));
        if (to[e] != EARTH) arb_sub(volts, volts, arb_mat_entry(potentials, to[e], 0), BITS);
        arb_add_si(volts, volts, nanovolts[e], BITS);
        arb_mul(part, siemens, volts, BITS);
        solved = arb_is_finite(part);
    }
    arb_clear(part);
    arb_clear(volts);
    arb_clear(siemens);
    arb_mat_clear(potentials);
    arb_mat_clear(right);
    arb_mat_clear(matrix);
    return solved;
}

int main(int argc, char **argv) {
    int64_t least = INT64_MAX;
    if (argc < 2) return 2;
    read_network(argv[1]);
    for (int turn = argc > 2 ? atoi(argv[2]) : 3; turn > 0; turn--) {
        int64_t start = now();
        if (!currents()) return 1;
        int64_t spent = now() - start;
        if (spent < least) least = spent;
    }
    printf("%ld\n", (long)least);
    return 0;
}
