/* The network that the baselines read: what the benchmark's word `network` prints. */
#include <stdint.h>
#include <stdio.h>
#include <stdlib.h>
#include <time.h>

enum { EARTH = 65535, MOST = 20000 };

/* Each element's ends, how many paths stand side by side in it, the resistance of one, and its voltage. A node is live
 * where an element ends at it. */
static int nodes, count, from[MOST], to[MOST], live[EARTH + 1];
static long times[MOST], micro_ohm[MOST], nanovolts[MOST];

static void read_network(const char *path) {
    FILE *file = fopen(path, "r");
    if (!file || fscanf(file, "%d", &nodes) != 1) exit(2);
    while (count < MOST
           && fscanf(file, "%d %d %ld %ld %ld", &from[count], &to[count], &times[count], &micro_ohm[count],
                     &nanovolts[count]) == 5) {
        live[from[count]] = live[to[count]] = 1;
        count++;
    }
    fclose(file);
}

/* Nanoseconds of a clock that only goes forward. */
static int64_t now(void) {
    struct timespec time;
    clock_gettime(CLOCK_MONOTONIC, &time);
    return time.tv_sec * (int64_t)1000000000 + time.tv_nsec;
}
