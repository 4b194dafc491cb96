// What a script of one's own would do with a storm: superposition in doubles. It certifies nothing.
//
//     superpose < NUMBERS
//
// NUMBERS: how many quantities there are and how many steps; then for each quantity its value in a field of 1 mV/km to the
// north and of 1 mV/km to the east; then each step's field, north and east. It combines all quantities at each step, keeps
// the greatest absolute value of each, and prints the nanoseconds of a step: the least of five passes over all steps.
#include <math.h>
#include <stdio.h>
#include <stdlib.h>
#include <time.h>

static double now(void) {
    struct timespec t;
    clock_gettime(CLOCK_MONOTONIC, &t);
    return t.tv_sec * 1e9 + t.tv_nsec;
}

int main(void) {
    long quantities, steps;
    if (scanf("%ld %ld", &quantities, &steps) != 2) return 1;
    double *north = malloc(quantities * sizeof *north), *east = malloc(quantities * sizeof *east);
    double *shown = malloc(quantities * sizeof *shown), *peak = calloc(quantities, sizeof *peak);
    double *fields = malloc(2 * steps * sizeof *fields);
    for (long i = 0; i < quantities; i++)
        if (scanf("%lf %lf", &north[i], &east[i]) != 2) return 1;
    for (long i = 0; i < 2 * steps; i++)
        if (scanf("%lf", &fields[i]) != 1) return 1;
    double least = INFINITY, sum = 0;
    for (int pass = 0; pass < 5; pass++) {
        double begin = now();
        for (long s = 0; s < steps; s++) {
            double n = fields[2 * s], e = fields[2 * s + 1];
            for (long i = 0; i < quantities; i++) shown[i] = n * north[i] + e * east[i];
            for (long i = 0; i < quantities; i++) peak[i] = fmax(peak[i], fabs(shown[i]));
        }
        double taken = (now() - begin) / steps;
        if (taken < least) least = taken;
    }
    for (long i = 0; i < quantities; i++) sum += peak[i];
    fprintf(stderr, "%g\n", sum);
    printf("%.0f\n", least);
    return 0;
}
