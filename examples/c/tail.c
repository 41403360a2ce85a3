/* A tail of twelve links (24 states, stiff springs) swung at its root, for two seconds: the angles by frame as a table
 * of comma-separated values, and on the error stream the requests of the steps beside their cap.
 *     bash tools/library raimsklo
 *     cc -Iinclude examples/c/tail.c target/staticlib/libraimsklo.a -lm -o target/tail
 *     target/tail > target/tail.csv
 * A number as argument is the largest number of steps: with 100 the run ends early, by name and with its advice. */
#include <math.h>
#include <stdio.h>
#include <stdlib.h>
#include "raimsklo_solve.h"

enum { LINKS = 12, N = 2 * LINKS, RATE = 24, FRAMES = 2 * RATE + 1, LENGTH = RAIMSKLO_SOLVE_LENGTH(N) };

/* Angles, then speeds: stiff springs between neighbours, each link softer and lighter than the one above. */
static int tail(double t, const double *y, double *f, size_t n, void *user) {
    const double *angle = y, *speed = y + LINKS;
    int i;
    (void)n, (void)user;
    for (i = 0; i < LINKS; i++) {
        double above = i == 0 ? 0.6 * sin(2 * t) : angle[i - 1];
        double stiff = 900 * pow(0.8, i), mass = pow(0.9, i);
        double pull = stiff * (above - angle[i]);
        if (i + 1 < LINKS) pull -= 0.8 * stiff * (angle[i] - angle[i + 1]);
        f[i] = speed[i];
        f[LINKS + i] = (pull - 6 * speed[i]) / mass - 9.81 * sin(angle[i]);
    }
    return 0;
}

int main(int argc, char **argv) {
    static double memory[LENGTH], poses[FRAMES * N], times[FRAMES];
    double y0[N] = {0}, rtol = 1e-6, atol = 1e-9;
    raimsklo_problem problem = raimsklo_make_problem(0, 2, y0, N, &rtol, 1, &atol, 1);
    raimsklo_callbacks callbacks = {tail, NULL, NULL, NULL};
    raimsklo_result result;
    size_t k, i;

    for (k = 0; k < FRAMES; k++) times[k] = (double)k / RATE;
    problem.t_eval = times, problem.t_eval_len = FRAMES, problem.poses = poses;
    if (argc > 1) problem.options.max_steps = strtoul(argv[1], NULL, 10);
    raimsklo_solve(&problem, &callbacks, memory, LENGTH, &result);

    printf("frame,time");
    for (i = 1; i <= LINKS; i++) printf(",angle%zu", i);
    for (k = 0; k < result.evaluated; k++) {
        printf("\n%zu,%.6f", k, times[k]);
        for (i = 0; i < LINKS; i++) printf(",%.6f", poses[k * N + i]);
    }
    printf("\n");

    fprintf(stderr, "%s at %g: %zu steps, %zu derivatives, at most %zu in a step, cap %zu\n",
            raimsklo_result_message(&result), result.time,
            result.accepted, result.nfe, result.largest_count, result.cap);
    if (result.status == RAIMSKLO_STATUS_SOLVED) return 0;
    if (result.has_nonfinite) fprintf(stderr, "the first pose that is not finite is at %g\n", result.nonfinite_at);
    fprintf(stderr, "%zu of %d frames; %s\n", result.evaluated, FRAMES, raimsklo_advice(result.number));
    return 1;
}
