/* include/raimsklo_solve.h where something is NaN: no success, compiled with -ffast-math too. So NaN is made by its
 * bits here, and never compared. */
#include "raimsklo_solve.h"
#include "check.h"

enum { LENGTH = RAIMSKLO_SOLVE_LENGTH(2) };
static double memory[LENGTH], not_a_number;
static raimsklo_result result;

static int turns(double t, const double *y, double *f, size_t n, void *user) {
    (void)t, (void)n, (void)user;
    f[0] = y[1], f[1] = -y[0];
    return 0;
}

static int forgetful(double t, const double *y, double *f, size_t n, void *user) {
    (void)t, (void)n, (void)user;
    f[0] = y[1];
    return 0;
}

static int poses_of_step(raimsklo_report *report, void *user) {
    double pose[2] = {7, 7};
    (void)user;
    CHECK(raimsklo_pose_at(report, not_a_number, pose) == RAIMSKLO_STATUS_OUTSIDE && pose[0] == 7 && pose[1] == 7);
    CHECK(raimsklo_pose_at(report, report->time, pose) == 0 && memcmp(pose, report->y, sizeof pose) == 0);
    return 0;
}

static int solve(const raimsklo_problem *p, raimsklo_derivative derivative) {
    raimsklo_callbacks c;
    c.derivative = derivative, c.jacobian = NULL, c.report = poses_of_step, c.user = NULL;
    return raimsklo_solve(p, &c, memory, LENGTH, &result);
}

int main(void) {
    const double start[2] = {1, 0}, tight = 1e-6, fine = 1e-9;
    double half[2] = {1, 0}, times[3] = {0, 0.5, 1}, back[3] = {1, 0.5, 0}, poses[6] = {7, 7, 7, 7, 7, 7};
    raimsklo_problem good = raimsklo_make_problem(0, 1, start, 2, &tight, 1, &fine, 1), p;
    size_t k;
    raimsklo_fill_(&not_a_number, 1, RAIMSKLO_NAN_);
    half[1] = not_a_number;
    good.poses = poses;

    for (k = 0; k < 3; k++) {
        times[k] = back[k] = not_a_number;
        p = good, p.t_eval = times, p.t_eval_len = 3;
        CHECK(solve(&p, turns) == RAIMSKLO_STATUS_ARGUMENT && result.evaluated == 0 && result.nfe == 0);
        p.t_eval = back, p.x0 = 1, p.xend = 0;
        CHECK(solve(&p, turns) == RAIMSKLO_STATUS_ARGUMENT && result.evaluated == 0 && result.nfe == 0);
        times[k] = (double)k / 2, back[k] = 1 - times[k];
    }
    p = good, p.rtol = &not_a_number;
    CHECK(solve(&p, turns) == RAIMSKLO_STATUS_ARGUMENT && result.nfe == 0);
    p = good, p.atol = half, p.atol_len = 2;
    CHECK(solve(&p, turns) == RAIMSKLO_STATUS_ARGUMENT && result.nfe == 0);

    /* an end, with t_eval and without; the first step in the refusal is not one that the driver gave */
    p = good, p.t_eval = times, p.t_eval_len = 3, p.xend = not_a_number;
    CHECK(solve(&p, turns) == RAIMSKLO_STATUS_ARGUMENT && result.nfe == 0);
    p.xend = 1, p.x0 = not_a_number;
    CHECK(solve(&p, turns) == RAIMSKLO_STATUS_ARGUMENT && result.nfe == 0);
    p = good, p.xend = not_a_number;
    CHECK(solve(&p, turns) == RAIMSKLO_STATUS_REFUSED && result.number == RAIMSKLO_REFUSED_FIRST_STEP);
    CHECK(result.nfe == 1 && result.value == 0);
    for (k = 0; k < 6; k++) CHECK(poses[k] == 7);

    /* the start, and a derivative */
    p = good, p.y0 = half, p.options.max_steps = 1000;
    CHECK(solve(&p, turns) != RAIMSKLO_STATUS_SOLVED && result.has_nonfinite && result.nonfinite_at == 0);
    p.y0 = start;
    CHECK(solve(&p, forgetful) != RAIMSKLO_STATUS_SOLVED && result.has_nonfinite && result.nonfinite_at > 0);

    p = good, p.t_eval = times, p.t_eval_len = 3;
    CHECK(solve(&p, turns) == RAIMSKLO_STATUS_SOLVED && result.evaluated == 3 && !result.has_nonfinite);
    p.t_eval = back, p.x0 = 1, p.xend = 0;
    CHECK(solve(&p, turns) == RAIMSKLO_STATUS_SOLVED && result.evaluated == 3 && !result.has_nonfinite);
    return passed("hosts/c/test_nan");
}
