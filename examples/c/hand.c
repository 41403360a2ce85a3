/* A hanging hand falls from the side until its wrist hangs straight down: a callback stops the run there. The time is
 * found within the accepted step that passes it, by halving, with the method's own interpolation.
 *     bash tools/library raimsklo
 *     cc -Iinclude examples/c/hand.c target/staticlib/libraimsklo.a -lm -o target/hand
 *     target/hand */
#include <math.h>
#include <stdio.h>
#include "raimsklo_solve.h"

enum { PARTS = 4, N = 2 * PARTS, HANGS = 7 };

/* Where the wrist hangs: what the run is about. */
typedef struct {
    double time;
    double pose[N];
} found;

/* Angles, then speeds: the wrist, then thumb, index and little finger, which hang from it by springs. */
static int hand(double t, const double *y, double *f, size_t n, void *user) {
    const double *angle = y, *speed = y + PARTS;
    int i;
    (void)t, (void)n, (void)user;
    for (i = 0; i < PARTS; i++) {
        double length = i == 0 ? 0.25 : 0.06 + 0.01 * i;
        double spring = i == 0 ? 0 : 80 * (angle[0] - angle[i]);
        f[i] = speed[i];
        f[PARTS + i] = spring - 9.81 / length * sin(angle[i]) - (i == 0 ? 1.2 : 4.0) * speed[i];
    }
    return 0;
}

/* Stops at the first step at whose end the wrist has passed the lowest point, with a number of the host's own. */
static int until_it_hangs(raimsklo_report *report, void *user) {
    found *hangs = (found *)user;
    double before = report->previous, after = report->time;
    int k;
    if (report->y[0] > 0) return 0;
    for (k = 0; k < 60; k++) {
        double middle = before + (after - before) / 2;
        if (raimsklo_pose_at(report, middle, hangs->pose) != 0) break;
        if (hangs->pose[0] > 0) before = middle;
        else after = middle;
    }
    hangs->time = after;
    return raimsklo_pose_at(report, after, hangs->pose) == 0 ? HANGS : -1;
}

int main(void) {
    double y0[N] = {1.2, 1.2, 1.2, 1.2}, rtol = 1e-6, atol = 1e-9;
    raimsklo_problem problem = raimsklo_make_problem(0, 5, y0, N, &rtol, 1, &atol, 1);
    found hangs = {0, {0}};
    raimsklo_callbacks callbacks = {hand, NULL, until_it_hangs, NULL};
    raimsklo_result result;

    callbacks.user = &hangs;
    raimsklo_solve_alloc(&problem, &callbacks, &result);
    if (result.status == RAIMSKLO_STATUS_STOPPED && result.stopped == HANGS) {
        printf("the wrist hangs at %.4f: thumb %.4f, index %.4f, little %.4f\n", hangs.time, hangs.pose[1],
               hangs.pose[2], hangs.pose[3]);
        printf("%s after %zu steps, %zu derivatives\n", raimsklo_message(result.number), result.accepted, result.nfe);
        return 0;
    }
    fprintf(stderr, "%s; %s\n", raimsklo_result_message(&result), raimsklo_advice(result.number));
    return 1;
}
