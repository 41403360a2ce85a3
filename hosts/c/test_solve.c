/* include/raimsklo_solve.h: every status, the rules of its buffers, and its run against the question loop, by bits. */
#include <math.h>
#include <setjmp.h>
#include <stdlib.h>
#include <string.h>

/* raimsklo_solve_alloc finds no memory while this is set. */
static int no_memory;
static inline void *asked_malloc(size_t size) { return no_memory ? NULL : malloc(size); }
#define malloc asked_malloc
#include "raimsklo_solve.h"
#undef malloc
#include "check.h"

enum { MOST = RAIMSKLO_MAX_STATES, LENGTH = RAIMSKLO_SOLVE_LENGTH(MOST) };
static double memory[LENGTH + 1];
static raimsklo_result result;

/* ---- what is solved ---- */

/* What the callbacks are told, and what they saw. */
typedef struct {
    double values[4];        /* the first derivatives, for one state; the last stands for all further ones */
    size_t derivatives, jacobians, reports;
    size_t stop_derivative, stop_jacobian, stop_report; /* the call that stops the run, 0: none */
    int buffers;             /* whether each buffer held what is promised before its call */
    int transposed;          /* the Jacobian by rows, which is wrong */
    size_t modify;           /* the report that goes on from half the pose */
    int scribble;            /* write to changed without asking for modified */
    double *log;             /* all that is seen, in its order */
    size_t logged;
} seen;

static seen nothing_seen(void) {
    seen s;
    memset(&s, 0, sizeof s);
    s.buffers = 1;
    return s;
}

enum { LOG = 400000 };
static double plain_log[LOG], driver_log[LOG];

static void note(seen *s, double what, double time, const double *numbers, size_t n) {
    if (s->log == NULL || s->logged + n + 2 > LOG) return;
    s->log[s->logged++] = what, s->log[s->logged++] = time;
    memcpy(s->log + s->logged, numbers, n * sizeof *numbers);
    s->logged += n;
}

static int stops(size_t call, size_t at, int number) { return call == at ? number : 0; }

static int scripted(double t, const double *y, double *f, size_t n, void *user) {
    seen *s = (seen *)user;
    (void)t, (void)y, (void)n;
    f[0] = s->values[s->derivatives < 3 ? s->derivatives : 3];
    return stops(++s->derivatives, s->stop_derivative, 5);
}

static int oscillator(double t, const double *y, double *f, size_t n, void *user) {
    seen *s = (seen *)user;
    size_t i;
    for (i = 0; i < n; i++) s->buffers = s->buffers && f[i] != f[i];
    note(s, 100, t, y, n);
    f[0] = y[1], f[1] = -y[0];
    return stops(++s->derivatives, s->stop_derivative, 5);
}

static int turns(double t, const double *y, double *f, size_t n, void *user) {
    (void)t, (void)n, (void)user;
    f[0] = y[1], f[1] = -y[0];
    return 0;
}

static int forgetful(double t, const double *y, double *f, size_t n, void *user) {
    (void)t, (void)n, (void)user;
    f[0] = y[1];
    return 0;
}

/* Stiff, and not symmetric: eigenvalues -1 and -1000, and the slow motion is that of the first state. */
static const double stiff_rows[2][2] = {{-1, 2000}, {0, -1000}};

static int stiff(double t, const double *y, double *f, size_t n, void *user) {
    seen *s = (seen *)user;
    note(s, 100, t, y, n);
    s->derivatives++;
    f[0] = stiff_rows[0][0] * y[0] + stiff_rows[0][1] * y[1];
    f[1] = stiff_rows[1][0] * y[0] + stiff_rows[1][1] * y[1];
    return 0;
}

static int stiff_columns(double t, const double *y, double *columns, size_t n, void *user) {
    seen *s = (seen *)user;
    size_t i, j;
    note(s, 101, t, y, n);
    for (i = 0; i < n * n; i++) s->buffers = s->buffers && columns[i] == 0;
    for (i = 0; i < n; i++) {
        for (j = 0; j < n; j++) {
            if (stiff_rows[i][j] != 0) columns[s->transposed ? i * n + j : j * n + i] = stiff_rows[i][j];
        }
    }
    return stops(++s->jacobians, s->stop_jacobian, -3);
}

static int decays(double t, const double *y, double *f, size_t n, void *user) {
    seen *s = (seen *)user;
    size_t i;
    note(s, 100, t, y, n);
    for (i = 0; i < n; i++) f[i] = -(double)(i + 1) / 8 * y[i];
    return 0;
}

static int watch(raimsklo_report *report, void *user) {
    seen *s = (seen *)user;
    size_t i;
    note(s, 103, report->previous, &report->time, 1);
    note(s, (double)report->count, report->y[0], report->snapshot, report->snapshot_len);
    CHECK(report->accepted == s->reports + 1);
    CHECK(memcmp(report->changed, report->y, report->n * sizeof *report->y) == 0);
    if (++s->reports == s->modify) {
        for (i = 0; i < report->n; i++) report->changed[i] = report->y[i] / 2;
        report->modified = 1;
    }
    if (s->scribble) report->changed[0] = 1e9;
    return stops(s->reports, s->stop_report, 42);
}

static raimsklo_callbacks calls(raimsklo_derivative derivative, raimsklo_jacobian jacobian, raimsklo_observer report,
                                void *user) {
    raimsklo_callbacks c;
    c.derivative = derivative, c.jacobian = jacobian, c.report = report, c.user = user;
    return c;
}

/* Solves with exactly the memory of n states and says whether nothing behind it was written. */
static int solve(const raimsklo_problem *p, const raimsklo_callbacks *c) {
    size_t length = RAIMSKLO_SOLVE_LENGTH(p->n);
    int status;
    memory[length] = 123;
    status = raimsklo_solve(p, c, memory, length, &result);
    CHECK(memory[length] == 123);
    CHECK(status == result.status);
    return status;
}

static const double tight = 1e-6, fine = 1e-9;
static const double start2[2] = {1, 0};

static raimsklo_problem oscillation(double x0, double xend) {
    return raimsklo_make_problem(x0, xend, start2, 2, &tight, 1, &fine, 1);
}

/* ---- the sums worked by hand, of one state ---- */

typedef struct {
    double y0, rtol, atol;
} scalar;

static raimsklo_problem sum(const scalar *s, double xend) {
    raimsklo_problem p = raimsklo_make_problem(0, xend, &s->y0, 1, &s->rtol, 1, &s->atol, 1);
    p.options.has_first_step = 1, p.options.first_step = 1;
    return p;
}

static int without_length(raimsklo_report *r, void *user) {
    double pose = 7;
    ((seen *)user)->reports++;
    CHECK(r->previous == 0 && r->time == 0);
    CHECK(raimsklo_pose_at(r, 0.5, &pose) == RAIMSKLO_STATUS_OUTSIDE && pose == 7);
    CHECK(raimsklo_pose_at(r, 0, &pose) == 0 && pose == r->y[0]);
    return 0;
}

static void sums(void) {
    scalar two = {2, 0.5, 0}, zero = {0, 0, 1};
    seen s = nothing_seen();
    raimsklo_callbacks c = calls(scripted, NULL, watch, &s);
    raimsklo_problem p = sum(&two, 1);

    /* (8) */
    CHECK(solve(&p, &c) == RAIMSKLO_STATUS_SOLVED && result.number == RAIMSKLO_SUCCESS);
    CHECK(result.h == 1 && result.nfe == 2 && result.total == 1 && result.accepted == 1 && result.rejected == 0);
    CHECK(result.time == 1 && result.y[0] == 2 && !result.has_nonfinite && s.reports == 1);
    CHECK(result.largest_count == 1 && result.cap == 73 + 19 && result.jacobian_cap == 19);

    /* (9): success to the library, and not to the host */
    s = nothing_seen(), s.values[1] = NAN;
    CHECK(solve(&p, &c) == RAIMSKLO_STATUS_NOT_FINITE && result.number == RAIMSKLO_SUCCESS);
    CHECK(result.has_nonfinite && result.nonfinite_at == 1 && result.y[0] != result.y[0] && result.time == 1);
    CHECK(result.h == 1 && result.nfe == 2 && result.total == 1 && result.accepted == 1 && result.rejected == 0);

    /* (10), with and without (9)'s NaN: the early end wins */
    s = nothing_seen(), p = sum(&two, 2), p.options.max_steps = 1;
    CHECK(solve(&p, &c) == RAIMSKLO_STATUS_ENDED_EARLY && result.number == RAIMSKLO_NEEDS_MORE_STEPS);
    CHECK(result.time == 1 && result.y[0] == 2 && !result.has_nonfinite);
    s = nothing_seen(), s.values[1] = NAN;
    CHECK(solve(&p, &c) == RAIMSKLO_STATUS_ENDED_EARLY && result.has_nonfinite && result.nonfinite_at == 1);

    /* (11) */
    s = nothing_seen(), s.values[1] = 100;
    p = sum(&zero, 1), p.options.maxcor = 1, p.options.mxncf = 1;
    CHECK(solve(&p, &c) == RAIMSKLO_STATUS_ENDED_EARLY && result.number == RAIMSKLO_POOR_CONVERGENCE);
    CHECK(result.total == 0 && result.accepted == 0 && result.rejected == 0 && s.reports == 0);
    CHECK(result.time == 0 && result.y[0] == 0);

    /* (12) */
    s = nothing_seen(), s.values[1] = s.values[2] = 100;
    p = sum(&zero, 1), p.options.has_min_step = 1, p.options.min_step = 1;
    CHECK(solve(&p, &c) == RAIMSKLO_STATUS_ENDED_EARLY && result.number == RAIMSKLO_STEP_TOO_SMALL);
    CHECK(result.total == 0 && result.accepted == 0 && result.rejected == 1);

    /* (8) with minimum step 2: h 0, steps that have no length; their poses are y, and there are none between */
    p = sum(&two, 1), p.options.has_min_step = 1, p.options.min_step = 2, p.options.max_steps = 5;
    s = nothing_seen(), c = calls(scripted, NULL, without_length, &s);
    CHECK(solve(&p, &c) == RAIMSKLO_STATUS_ENDED_EARLY && result.number == RAIMSKLO_NEEDS_MORE_STEPS && result.h == 0);
    CHECK(s.reports == 5);
}

/* ---- the ends of the interval, and no states ---- */

static void ends(void) {
    scalar one = {1, 1e-3, 1e-6}, weightless = {0, 1e-3, 0}, broken = {INFINITY, 1e-3, 1e-6};
    double time[2] = {2, 2}, poses[2] = {0, 0};
    seen s = nothing_seen();
    raimsklo_callbacks c = calls(scripted, NULL, watch, &s), none = calls(NULL, NULL, NULL, NULL);
    raimsklo_problem p = sum(&one, 2);
    p.x0 = 2, p.options.has_first_step = 0, p.t_eval = time, p.t_eval_len = 2, p.poses = poses;
    CHECK(solve(&p, &c) == RAIMSKLO_STATUS_SOLVED && result.number == RAIMSKLO_SUCCESS);
    CHECK(result.h == 0 && result.nfe == 1 && result.accepted == 0 && s.derivatives == 1 && s.reports == 0);
    CHECK(result.time == 2 && result.y[0] == 1 && result.evaluated == 2 && poses[0] == 1 && poses[1] == 1);
    p.t_eval_len = 0;
    p.options.has_first_step = 1, p.options.first_step = -1; /* what is given is handed on */
    CHECK(solve(&p, &c) == RAIMSKLO_STATUS_REFUSED && result.number == RAIMSKLO_REFUSED_FIRST_STEP);
    p.options.has_first_step = 0;
    p.x0 = 0.0, p.xend = -0.0; /* equal, and their difference is -0 */
    CHECK(solve(&p, &c) == RAIMSKLO_STATUS_SOLVED);
    p.x0 = -0.0, p.xend = 0.0;
    CHECK(solve(&p, &c) == RAIMSKLO_STATUS_SOLVED);
    p.x0 = p.xend = INFINITY; /* their difference is NaN: the library refuses the step that it computes */
    CHECK(solve(&p, &c) == RAIMSKLO_STATUS_REFUSED && result.number == RAIMSKLO_REFUSED_FIRST_STEP && result.nfe == 1);
    p.x0 = p.xend = 0.0;
    p.options.max_steps = 0;
    CHECK(solve(&p, &c) == RAIMSKLO_STATUS_REFUSED && result.number == RAIMSKLO_REFUSED_NO_STEPS);
    p = sum(&weightless, 0), p.options.has_first_step = 0;
    CHECK(solve(&p, &c) == RAIMSKLO_STATUS_REFUSED && result.number == RAIMSKLO_REFUSED_WEIGHT && result.index == 0);
    p = sum(&broken, 0), p.options.has_first_step = 0;
    CHECK(solve(&p, &c) == RAIMSKLO_STATUS_NOT_FINITE && result.number == RAIMSKLO_SUCCESS);
    CHECK(result.has_nonfinite && result.nonfinite_at == 0 && result.y[0] == INFINITY);

    p = raimsklo_make_problem(0, 1, NULL, 0, NULL, 0, NULL, 0);
    CHECK(raimsklo_solve(&p, &none, NULL, 0, &result) == RAIMSKLO_STATUS_SOLVED && result.number == RAIMSKLO_SUCCESS);
    CHECK(result.h == 0 && result.nfe == 0 && result.accepted == 0 && result.time == 0 && !result.has_nonfinite);
    p.t_eval = time, p.t_eval_len = 2; /* poses of no numbers, which need no room */
    CHECK(raimsklo_solve_alloc(&p, &none, &result) == RAIMSKLO_STATUS_SOLVED && result.evaluated == 2);
}

/* ---- refusals, by number with index or value ---- */

static void refused(const raimsklo_problem *p, size_t number, size_t index, double value) {
    seen s = nothing_seen();
    raimsklo_callbacks c = calls(oscillator, NULL, NULL, &s);
    raimsklo_solve(p, &c, memory, LENGTH, &result);
    CHECK_AT(result.status == RAIMSKLO_STATUS_REFUSED && result.number == number, raimsklo_message(number));
    CHECK_AT(result.index == index && result.value == value, raimsklo_message(number));
    CHECK_AT(result.stopped == 0 && result.accepted == 0 && result.time == p->x0, raimsklo_message(number));
    CHECK_AT(result.y[0] == (number == RAIMSKLO_REFUSED_TOO_MANY_STATES ? 0 : p->y0[0]), raimsklo_message(number));
}

static void refusals(void) {
    static const double many[MOST + 1] = {1};
    const double below[2] = {1e-3, -1e-3}, weights[2] = {1, 0}, falls = 1, none = 0;
    raimsklo_problem good = oscillation(0, 10), p = good;
    seen s = nothing_seen();
    raimsklo_callbacks c = calls(oscillator, NULL, NULL, &s);
    p.y0 = many, p.n = MOST + 1;
    refused(&p, RAIMSKLO_REFUSED_TOO_MANY_STATES, 0, 0);
    CHECK(raimsklo_solve_alloc(&p, &c, &result) == RAIMSKLO_STATUS_REFUSED && result.number == 1 && result.cap == 0);
    p = good, p.rtol_len = 3;
    refused(&p, RAIMSKLO_REFUSED_TOLERANCE_LENGTH, 0, 0);
    p = good, p.atol = NULL, p.atol_len = 0;
    refused(&p, RAIMSKLO_REFUSED_TOLERANCE_LENGTH, 0, 0);
    p = good, p.options.mxncf = (size_t)-1;
    refused(&p, RAIMSKLO_REFUSED_SETTING_TOO_LARGE, 0, 0);
    p = good, memset(&p.options, 0, sizeof p.options);
    refused(&p, RAIMSKLO_REFUSED_NO_STEPS, 0, 0);
    p = good, p.options.maxcor = 0;
    refused(&p, RAIMSKLO_REFUSED_NO_ITERATIONS, 0, 0);
    p = good, p.options.mxordn = 0;
    refused(&p, RAIMSKLO_REFUSED_NO_ORDER, 0, 0);
    p = good, p.options.banded = 1;
    refused(&p, RAIMSKLO_REFUSED_BANDED, 0, 0);
    p = good, p.rtol = below, p.rtol_len = 2;
    refused(&p, RAIMSKLO_REFUSED_NEGATIVE_RELATIVE, 1, 0);
    p = good, p.atol = below, p.atol_len = 2;
    refused(&p, RAIMSKLO_REFUSED_NEGATIVE_ABSOLUTE, 1, 0);
    p = good, p.options.has_first_step = 1, p.options.first_step = -0.5;
    refused(&p, RAIMSKLO_REFUSED_FIRST_STEP, 0, -0.5);
    p = good, p.xend = NAN; /* after the first derivative */
    refused(&p, RAIMSKLO_REFUSED_FIRST_STEP, 0, 0);
    CHECK(result.nfe == 1);
    p = good, p.atol = weights, p.atol_len = 2;
    refused(&p, RAIMSKLO_REFUSED_WEIGHT, 1, 0);
    CHECK(result.nfe == 1);

    /* 12 at the end of an accepted step: y falls from 1 to 0, whose pose is not reported */
    s = nothing_seen(), s.values[0] = s.values[1] = -1;
    c = calls(scripted, NULL, watch, &s);
    p = raimsklo_make_problem(0, 1, &falls, 1, &falls, 1, &none, 1);
    p.options.has_first_step = 1, p.options.first_step = 1;
    CHECK(solve(&p, &c) == RAIMSKLO_STATUS_REFUSED && result.number == RAIMSKLO_REFUSED_WEIGHT);
    CHECK(result.index == 0 && result.nfe == 2 && result.time == 0 && result.y[0] == 1 && s.reports == 0);

    /* one double too few */
    c = calls(oscillator, NULL, NULL, &s);
    CHECK(raimsklo_solve(&good, &c, memory, RAIMSKLO_SOLVE_LENGTH(2) - 1, &result) == RAIMSKLO_STATUS_REFUSED);
    CHECK(result.number == RAIMSKLO_REFUSED_BUFFER_LENGTH);
    CHECK(raimsklo_solve(&good, &c, NULL, 0, &result) == RAIMSKLO_STATUS_REFUSED && result.number == 3);
}

static void arguments(void) {
    const double inside[2] = {1, 2}, backwards[2] = {2, 1}, before[2] = {-1, 5}, outside[2] = {1, 11};
    const double unknown[1] = {NAN}, half_known[2] = {1e-6, -NAN}, known_last[2] = {NAN, 1e-6}, infinite = INFINITY;
    double poses[4];
    seen s = nothing_seen();
    raimsklo_callbacks c = calls(oscillator, NULL, NULL, &s), none = calls(NULL, NULL, NULL, NULL);
    raimsklo_problem good = oscillation(0, 10), p = good;
    CHECK(raimsklo_solve(NULL, &c, memory, LENGTH, &result) == RAIMSKLO_STATUS_ARGUMENT);
    CHECK(raimsklo_solve(&p, NULL, memory, LENGTH, &result) == RAIMSKLO_STATUS_ARGUMENT);
    CHECK(raimsklo_solve(&p, &c, memory, LENGTH, NULL) == RAIMSKLO_STATUS_ARGUMENT);
    CHECK(raimsklo_solve(&p, &c, NULL, LENGTH, &result) == RAIMSKLO_STATUS_ARGUMENT);
    CHECK(raimsklo_solve_alloc(NULL, &c, &result) == RAIMSKLO_STATUS_ARGUMENT);
    CHECK(solve(&p, &none) == RAIMSKLO_STATUS_ARGUMENT && result.number == 0);
    p = good, p.y0 = NULL;
    CHECK(solve(&p, &c) == RAIMSKLO_STATUS_ARGUMENT);
    p = good, p.rtol = NULL;
    CHECK(solve(&p, &c) == RAIMSKLO_STATUS_ARGUMENT);
    p = good, p.atol = NULL;
    CHECK(solve(&p, &c) == RAIMSKLO_STATUS_ARGUMENT);
    p = good, p.rtol = unknown;
    CHECK(solve(&p, &c) == RAIMSKLO_STATUS_ARGUMENT && result.number == 0 && result.y[0] == 1);
    p.rtol = half_known, p.rtol_len = 2;
    CHECK(solve(&p, &c) == RAIMSKLO_STATUS_ARGUMENT);
    p.rtol = known_last;
    CHECK(solve(&p, &c) == RAIMSKLO_STATUS_ARGUMENT);
    p = good, p.atol = unknown;
    CHECK(solve(&p, &c) == RAIMSKLO_STATUS_ARGUMENT);
    p.atol = half_known, p.atol_len = 2;
    CHECK(solve(&p, &c) == RAIMSKLO_STATUS_ARGUMENT);
    p.rtol_len = 3; /* of which there is one: a wrong length is refused as such, unread */
    CHECK(solve(&p, &c) == RAIMSKLO_STATUS_REFUSED && result.number == RAIMSKLO_REFUSED_TOLERANCE_LENGTH);
    p = good, p.atol_len = 3;
    CHECK(solve(&p, &c) == RAIMSKLO_STATUS_REFUSED && result.number == RAIMSKLO_REFUSED_TOLERANCE_LENGTH);
    p = good, p.rtol = unknown, p.rtol_len = 0;
    CHECK(solve(&p, &c) == RAIMSKLO_STATUS_REFUSED && result.number == RAIMSKLO_REFUSED_TOLERANCE_LENGTH);
    p = good, p.n = p.rtol_len = p.atol_len = (size_t)-1; /* nothing is read */
    CHECK(raimsklo_solve(&p, &c, memory, LENGTH, &result) == RAIMSKLO_STATUS_REFUSED);
    CHECK(result.number == RAIMSKLO_REFUSED_TOO_MANY_STATES);
    p = good, p.t_eval = inside, p.t_eval_len = 2; /* no poses */
    CHECK(solve(&p, &c) == RAIMSKLO_STATUS_ARGUMENT);
    p = good, p.poses = poses, p.t_eval_len = 2; /* no times */
    CHECK(solve(&p, &c) == RAIMSKLO_STATUS_ARGUMENT);
    p.t_eval = backwards;
    CHECK(solve(&p, &c) == RAIMSKLO_STATUS_ARGUMENT);
    p.t_eval = before;
    CHECK(solve(&p, &c) == RAIMSKLO_STATUS_ARGUMENT);
    p.t_eval = outside;
    CHECK(solve(&p, &c) == RAIMSKLO_STATUS_ARGUMENT);
    p.t_eval = unknown, p.t_eval_len = 1;
    CHECK(solve(&p, &c) == RAIMSKLO_STATUS_ARGUMENT);
    CHECK(s.derivatives == 0);
    p = good, p.rtol = &infinite; /* is no NaN */
    CHECK(solve(&p, &c) == RAIMSKLO_STATUS_SOLVED);
    p = good, p.t_eval = inside, p.t_eval_len = 2, p.poses = poses;
    CHECK(solve(&p, &c) == RAIMSKLO_STATUS_SOLVED && result.evaluated == 2);

    no_memory = 1;
    CHECK(raimsklo_solve_alloc(&good, &c, &result) == RAIMSKLO_STATUS_MEMORY && result.number == 0);
    CHECK(raimsklo_solve_alloc(&good, &c, NULL) == RAIMSKLO_STATUS_MEMORY);
    no_memory = 0;
    CHECK(raimsklo_solve_alloc(&good, &c, &result) == RAIMSKLO_STATUS_SOLVED);
    CHECK(fabs(result.y[0] - cos(10)) < 1e-3 && result.time == 10);
}

/* The statuses by value, from -7 on, and the reason of a result: the library's where it has one. */
static void status_messages(void) {
    static const char *const told[] = {
        "unknown status", "a time is not of an accepted step", "no memory",
        "a pointer is NULL, a tolerance is NaN, or t_eval does not go from x0 to xend", "refused",
        "a pose is not finite", "ended early", "solved", "stopped by a callback", "unknown status"};
    int status;
    for (status = -7; status <= 2; status++) {
        const char *text = told[status + 7];
        CHECK_AT(strcmp(raimsklo_status_message(status), text) == 0, text);
        result.status = status, result.number = 0;
        if (status == RAIMSKLO_STATUS_REFUSED) result.number = 12, text = raimsklo_message(12);
        if (status == RAIMSKLO_STATUS_ENDED_EARLY) result.number = 113, text = raimsklo_message(113);
        if (status == RAIMSKLO_STATUS_NOT_FINITE) result.number = 110;
        CHECK_AT(strcmp(raimsklo_result_message(&result), text) == 0, text);
    }
    CHECK(RAIMSKLO_STATUS_SOLVED == 0 && RAIMSKLO_STATUS_STOPPED == 1 && RAIMSKLO_STATUS_ENDED_EARLY == -1);
    CHECK(RAIMSKLO_STATUS_NOT_FINITE == -2 && RAIMSKLO_STATUS_REFUSED == -3 && RAIMSKLO_STATUS_ARGUMENT == -4);
    CHECK(RAIMSKLO_STATUS_MEMORY == -5 && RAIMSKLO_STATUS_OUTSIDE == -6);
    CHECK(RAIMSKLO_SOLVE_LENGTH(1 + 1) * 2 == 160);
}

/* ---- from the pose of the call before, in the result ---- */

static void going_on(void) {
    static double many[MOST];
    double middle[2];
    size_t i;
    seen s = nothing_seen();
    raimsklo_callbacks c = calls(oscillator, NULL, NULL, &s), none = calls(NULL, NULL, NULL, NULL);
    raimsklo_problem first = oscillation(0, 5), p = oscillation(5, 10);
    raimsklo_result apart;
    CHECK(solve(&first, &c) == RAIMSKLO_STATUS_SOLVED);
    memcpy(middle, result.y, sizeof middle);
    p.y0 = middle;
    CHECK(raimsklo_solve_alloc(&p, &c, &apart) == RAIMSKLO_STATUS_SOLVED && fabs(apart.y[0] - cos(10.0)) < 1e-3);

    p.y0 = result.y;
    CHECK(solve(&p, &c) == RAIMSKLO_STATUS_SOLVED && result.nfe == apart.nfe);
    CHECK(memcmp(result.y, apart.y, sizeof apart.y) == 0);
    CHECK(solve(&first, &c) == RAIMSKLO_STATUS_SOLVED);
    CHECK(raimsklo_solve_alloc(&p, &c, &result) == RAIMSKLO_STATUS_SOLVED);
    CHECK(memcmp(result.y, apart.y, sizeof apart.y) == 0);

    /* what begins no run leaves the pose there for the next call */
    CHECK(solve(&first, &c) == RAIMSKLO_STATUS_SOLVED);
    CHECK(solve(&p, &none) == RAIMSKLO_STATUS_ARGUMENT && result.time == 5);
    CHECK(memcmp(result.y, middle, sizeof middle) == 0);
    no_memory = 1;
    CHECK(raimsklo_solve_alloc(&p, &c, &result) == RAIMSKLO_STATUS_MEMORY && result.time == 5);
    CHECK(memcmp(result.y, middle, sizeof middle) == 0);
    no_memory = 0;
    p.options.max_steps = 0;
    CHECK(solve(&p, &c) == RAIMSKLO_STATUS_REFUSED && memcmp(result.y, middle, sizeof middle) == 0);

    /* all 64 states */
    for (i = 0; i < MOST; i++) many[i] = 1;
    p = raimsklo_make_problem(0, 0.5, many, MOST, &tight, 1, &tight, 1), c = calls(decays, NULL, NULL, &s);
    CHECK(solve(&p, &c) == RAIMSKLO_STATUS_SOLVED);
    p.x0 = 0.5, p.xend = 1, p.y0 = result.y;
    CHECK(solve(&p, &c) == RAIMSKLO_STATUS_SOLVED);
    for (i = 0; i < MOST; i++) CHECK(fabs(result.y[i] - exp(-(double)(i + 1) / 8)) < 1e-3);
}

/* ---- stopped by each callback ---- */

/* Asks for both: the stop counts, and the pose reported stays as it was. */
static int changes_and_stops(raimsklo_report *report, void *user) {
    report->changed[0] = 9, report->modified = 1;
    CHECK(report->y[0] != 9);
    (void)user;
    return 7;
}

static void stopped(void) {
    const double slow[2] = {1, 1};
    seen s = nothing_seen();
    raimsklo_callbacks c = calls(oscillator, NULL, watch, &s);
    raimsklo_problem p = oscillation(0, 10);

    s.stop_derivative = 10;
    CHECK(solve(&p, &c) == RAIMSKLO_STATUS_STOPPED && result.number == RAIMSKLO_INTERRUPTED && result.stopped == 5);
    CHECK(s.derivatives == 10 && result.nfe == 10 && result.accepted == s.reports && s.reports > 0);
    CHECK(result.time > 0 && result.nlu == 0);

    s = nothing_seen(), s.stop_derivative = 1;
    CHECK(solve(&p, &c) == RAIMSKLO_STATUS_STOPPED && result.stopped == 5 && result.nfe == 1 && s.reports == 0);
    CHECK(result.time == 0 && result.y[0] == 1);

    s = nothing_seen(), s.stop_report = 3, s.scribble = 1;
    CHECK(solve(&p, &c) == RAIMSKLO_STATUS_STOPPED && result.number == RAIMSKLO_INTERRUPTED && result.stopped == 42);
    CHECK(s.reports == 3 && result.accepted == 3 && result.nfe == s.derivatives && result.h > 0);

    s = nothing_seen(), c.report = changes_and_stops;
    CHECK(solve(&p, &c) == RAIMSKLO_STATUS_STOPPED && result.stopped == 7 && result.accepted == 1);

    p = raimsklo_make_problem(0, 10, slow, 2, &tight, 1, &fine, 1), c = calls(stiff, stiff_columns, watch, &s);
    s = nothing_seen(), s.stop_jacobian = 2;
    CHECK(solve(&p, &c) == RAIMSKLO_STATUS_STOPPED && result.number == RAIMSKLO_INTERRUPTED && result.stopped == -3);
    CHECK(s.jacobians == 2 && result.nje == 2 && result.nfe == s.derivatives && result.accepted == s.reports);

    s = nothing_seen();
    CHECK(solve(&p, &c) == RAIMSKLO_STATUS_SOLVED && result.stopped == 0);
}

/* ---- callbacks that solve something else, and that do not return ---- */

static int solves_another(double t, const double *y, double *f, size_t n, void *user) {
    raimsklo_problem other = oscillation(0, 0.1);
    raimsklo_callbacks c = calls(oscillator, NULL, NULL, user);
    raimsklo_result there;
    CHECK(raimsklo_solve_alloc(&other, &c, &there) == RAIMSKLO_STATUS_SOLVED);
    return oscillator(t, y, f, n, user);
}

#ifndef __cplusplus
static jmp_buf out_of_the_run;
#endif

static int leaves(double t, const double *y, double *f, size_t n, void *user) {
    if (oscillator(t, y, f, n, user) != 0) {
#ifdef __cplusplus
        throw 5;
#else
        longjmp(out_of_the_run, 5);
#endif
    }
    return 0;
}

static int leaving(const raimsklo_problem *p, const raimsklo_callbacks *c) {
#ifdef __cplusplus
    try {
        raimsklo_solve(p, c, memory, LENGTH, &result);
    } catch (int number) {
        return number;
    }
#else
    if (setjmp(out_of_the_run) != 0) return 5;
    raimsklo_solve(p, c, memory, LENGTH, &result);
#endif
    return 0;
}

static void elsewhere(void) {
    seen s = nothing_seen();
    raimsklo_callbacks c = calls(oscillator, NULL, NULL, &s);
    raimsklo_problem p = oscillation(0, 1);
    raimsklo_result alone;
    CHECK(solve(&p, &c) == RAIMSKLO_STATUS_SOLVED);
    alone = result;
    c.derivative = leaves, s = nothing_seen(), s.stop_derivative = 10;
    CHECK(leaving(&p, &c) == 5 && s.derivatives == 10);
    CHECK(result.status == RAIMSKLO_STATUS_STOPPED && result.number == RAIMSKLO_INTERRUPTED && result.stopped == 0);
    CHECK(result.time > 0 && result.time < 1 && fabs(result.y[0] - cos(result.time)) < 1e-3 && result.accepted > 0);
    c.derivative = solves_another; /* in the memory that was left behind */
    CHECK(solve(&p, &c) == RAIMSKLO_STATUS_SOLVED && result.nfe == alone.nfe && result.accepted == alone.accepted);
    CHECK(memcmp(result.y, alone.y, sizeof alone.y) == 0);
}

/* ---- what buffers hold before a callback, and poses that are not finite ---- */

static void buffers(void) {
    const double slow[2] = {1, 1}, nan_start[2] = {1, NAN};
    const double time = 5;
    double pose[2];
    seen s = nothing_seen();
    raimsklo_callbacks c = calls(oscillator, NULL, watch, &s);
    raimsklo_problem p = oscillation(0, 10);
    CHECK(solve(&p, &c) == RAIMSKLO_STATUS_SOLVED && s.buffers && s.derivatives > 100);

    p = raimsklo_make_problem(0, 10, slow, 2, &tight, 1, &fine, 1), c = calls(stiff, stiff_columns, NULL, &s);
    CHECK(solve(&p, &c) == RAIMSKLO_STATUS_SOLVED && s.buffers && s.jacobians > 1);

    p = oscillation(0, 10), c = calls(forgetful, NULL, NULL, NULL);
    p.options.max_steps = 1000;
    CHECK(solve(&p, &c) != RAIMSKLO_STATUS_SOLVED && result.has_nonfinite && result.nonfinite_at > 0);

    s = nothing_seen(), c = calls(oscillator, NULL, watch, &s);
    p.y0 = nan_start, p.t_eval = &time, p.t_eval_len = 1, p.poses = pose;
    CHECK(solve(&p, &c) != RAIMSKLO_STATUS_SOLVED && result.has_nonfinite && result.nonfinite_at == 0);
    s = nothing_seen(), s.stop_derivative = 1;
    CHECK(solve(&p, &c) == RAIMSKLO_STATUS_STOPPED && result.has_nonfinite && result.nonfinite_at == 0);
}

/* NaN after half of the interval from 0 to 1, or from 1 to 0, as user points to its direction. */
static int breaks(double t, const double *y, double *f, size_t n, void *user) {
    double sign = *(double *)user;
    (void)y, (void)n;
    f[0] = sign * t > sign * 0.5 ? NAN : 1;
    return 0;
}

/* The same of the first of two states. */
static int first_breaks(double t, const double *y, double *f, size_t n, void *user) {
    f[1] = cos(t);
    return breaks(t, y, f, n, user);
}

/* The first time that is not finite: of t_eval where it lies within a step, else the step's end. */
static void first_time(void) {
    const scalar one = {1, 1e-3, 1e-6};
    const double forward[5] = {0.25, 0.5, 0.52, 0.55, 1}, backward[4] = {0.75, 0.48, 0.45, 0};
    double direction = 1, poses[5], end;
    raimsklo_callbacks c = calls(breaks, NULL, NULL, &direction);
    raimsklo_problem p = sum(&one, 1);
    p.options.first_step = p.options.max_step = 0.1, p.options.has_max_step = 1;
    CHECK(solve(&p, &c) == RAIMSKLO_STATUS_NOT_FINITE);
    end = result.nonfinite_at;
    CHECK(end > 0.55 && end < 0.65);
    p.t_eval = forward, p.t_eval_len = 5, p.poses = poses;
    CHECK(solve(&p, &c) == RAIMSKLO_STATUS_NOT_FINITE && result.evaluated == 5 && result.nonfinite_at == 0.52);
    CHECK(poses[1] == poses[1] && poses[2] != poses[2] && poses[3] != poses[3] && poses[4] != poses[4]);
    p.t_eval = forward + 4, p.t_eval_len = 1; /* later than the step's end */
    CHECK(solve(&p, &c) == RAIMSKLO_STATUS_NOT_FINITE && result.evaluated == 1 && result.nonfinite_at == end);

    p = oscillation(0, 1), c.derivative = first_breaks;
    CHECK(solve(&p, &c) == RAIMSKLO_STATUS_NOT_FINITE && result.y[0] != result.y[0] && result.y[1] == result.y[1]);

    p = sum(&one, 1), c.derivative = breaks, p.poses = poses;
    p.options.max_step = 0.1, p.options.has_max_step = 1;
    direction = -1, p.x0 = 1, p.xend = 0, p.options.first_step = -0.1;
    p.t_eval = backward, p.t_eval_len = 4;
    CHECK(solve(&p, &c) == RAIMSKLO_STATUS_NOT_FINITE && result.evaluated == 4 && result.nonfinite_at == 0.48);
    CHECK(poses[0] == poses[0] && poses[1] != poses[1]);
}

/* ---- the Jacobian, column by column ---- */

static void columns(void) {
    const double slow[2] = {1, 1};
    double exact = 1 * exp(-10.0) + 2000.0 / 999 * exp(-10.0); /* y0 once the fast motion is over */
    size_t given, differences, nje;
    seen s = nothing_seen();
    raimsklo_callbacks c = calls(stiff, stiff_columns, NULL, &s);
    raimsklo_problem p = raimsklo_make_problem(0, 10, slow, 2, &tight, 1, &fine, 1);
    CHECK(solve(&p, &c) == RAIMSKLO_STATUS_SOLVED && result.nje == s.jacobians && result.cap == 73);
    CHECK(fabs(result.y[0] - exact) < 0.05 * exact);
    given = result.nfe, nje = result.nje;
    c.jacobian = NULL, p.options.supplied = 1; /* which follows the callback */
    CHECK(solve(&p, &c) == RAIMSKLO_STATUS_SOLVED && result.cap == 73 + 2 * 19);
    CHECK(fabs(result.y[0] - exact) < 0.05 * exact);
    differences = result.nfe - 2 * result.nje; /* but for the columns */
    CHECK(given < differences + differences / 10 && differences < given + given / 10 && nje > 1);
    s = nothing_seen(), s.transposed = 1, c.jacobian = stiff_columns;
    solve(&p, &c);
    CHECK(result.nfe > given + given / 2); /* the wrong order costs */
}

/* ---- poses within a step, and at given times ---- */

static int poses_of_step(raimsklo_report *r, void *user) {
    seen *s = (seen *)user;
    double pose[2] = {7, 7}, middle = (r->previous + r->time) / 2, away = r->time - r->previous;
    s->reports++;
    CHECK(raimsklo_pose_at(r, r->time + away / 100, pose) == RAIMSKLO_STATUS_OUTSIDE);
    CHECK(raimsklo_pose_at(r, r->previous - away / 100, pose) == RAIMSKLO_STATUS_OUTSIDE);
    CHECK(raimsklo_pose_at(r, NAN, pose) == RAIMSKLO_STATUS_OUTSIDE);
    CHECK(pose[0] == 7 && pose[1] == 7);
    CHECK(raimsklo_pose_at(r, middle, pose) == 0 && fabs(pose[0] - cos(middle)) < 1e-3);
    CHECK(raimsklo_pose_at(r, r->previous, pose) == 0 && fabs(pose[0] - cos(r->previous)) < 1e-3);
    CHECK(raimsklo_pose_at(r, r->time, pose) == 0 && memcmp(pose, r->y, sizeof pose) == 0);
    return stops(s->reports, s->stop_report, 1);
}

/* The pose reported before, its order, and how far the step's beginning lies from it at most. */
typedef struct {
    double y[2];
    size_t length; /* of the snapshot, which tells the order; 0: none yet */
    double same_order, changed_order;
} beginnings;

static int beginning_of_step(raimsklo_report *r, void *user) {
    beginnings *b = (beginnings *)user;
    double pose[2], *most = b->length == r->snapshot_len ? &b->same_order : &b->changed_order;
    size_t i;
    CHECK(raimsklo_pose_at(r, r->previous, pose) == 0);
    for (i = 0; i < 2 && b->length > 0; i++) *most = fmax(*most, fabs(pose[i] - b->y[i]));
    memcpy(b->y, r->y, sizeof b->y), b->length = r->snapshot_len;
    return 0;
}

static void beginning(void) {
    beginnings b = {{0, 0}, 0, 0, 0};
    raimsklo_callbacks c = calls(turns, NULL, beginning_of_step, &b);
    raimsklo_problem p = oscillation(0, 10);
    CHECK(solve(&p, &c) == RAIMSKLO_STATUS_SOLVED);
    CHECK(b.same_order > 0 && b.same_order < 1e-14);              /* roundings */
    CHECK(b.changed_order > 1e-9 && b.changed_order < 2 * tight); /* a step's error */
}

static void poses(void) {
    enum { TIMES = 12 };
    double times[TIMES], out[TIMES * 2], back[2] = {cos(10.0), -sin(10.0)};
    size_t k;
    seen s = nothing_seen();
    raimsklo_callbacks c = calls(oscillator, NULL, poses_of_step, &s);
    raimsklo_problem p = oscillation(0, 10);
    CHECK(solve(&p, &c) == RAIMSKLO_STATUS_SOLVED && s.reports == result.accepted && result.evaluated == 0);

    for (k = 0; k < TIMES; k++) times[k] = k < 11 ? (double)k : 10; /* the last twice */
    p.t_eval = times, p.t_eval_len = TIMES, p.poses = out;
    CHECK(solve(&p, &c) == RAIMSKLO_STATUS_SOLVED && result.evaluated == TIMES);
    for (k = 0; k < TIMES; k++) {
        CHECK(fabs(out[2 * k] - cos(times[k])) < 1e-3);
        CHECK(fabs(out[2 * k + 1] + sin(times[k])) < 1e-3);
    }
    CHECK(out[0] == 1 && out[1] == 0);
    CHECK(memcmp(out + 2 * (TIMES - 1), result.y, 2 * sizeof *out) == 0);

    /* backward in time */
    for (k = 0; k < TIMES; k++) times[k] = k < 11 ? 10 - (double)k : 0;
    p.x0 = 10, p.xend = 0, p.y0 = back;
    CHECK(solve(&p, &c) == RAIMSKLO_STATUS_SOLVED && result.evaluated == TIMES && result.time == 0);
    for (k = 0; k < TIMES; k++) CHECK(fabs(out[2 * k] - cos(times[k])) < 1e-3);
    CHECK(fabs(result.y[0] - 1) < 1e-3);

    /* where the run stops, no pose is made */
    for (k = 0; k < TIMES; k++) times[k] = (double)k / 2;
    p = oscillation(0, 10), p.t_eval = times, p.t_eval_len = TIMES, p.poses = out, p.options.max_steps = 200;
    for (k = 0; k < 2 * TIMES; k++) out[k] = 7;
    CHECK(solve(&p, &c) == RAIMSKLO_STATUS_ENDED_EARLY && result.evaluated > 1 && result.evaluated < TIMES);
    CHECK(times[result.evaluated - 1] <= result.time && times[result.evaluated] > result.time);
    for (k = 0; k < 2 * TIMES; k++) CHECK((out[k] == 7) == (k >= 2 * result.evaluated));
}

/* A host that changes t_eval under way: a time that lies in no step is no success. */
static int moves_the_time(raimsklo_report *report, void *user) {
    *(double *)user = report->previous / 2 - 1;
    return 0;
}

static void poses_that_are_missing(void) {
    const double columns[8] = {1, 1, 1, 0.5, 0.5, 0, 2, INFINITY}, y = 2; /* n 1, order 1, step 0.5 to 1 */
    double time = 10, out[2] = {7, 7};
    raimsklo_callbacks c = calls(turns, NULL, moves_the_time, &time);
    raimsklo_problem p = oscillation(0, 10);
    raimsklo_report report;
    p.t_eval = &time, p.t_eval_len = 1, p.poses = out;
    CHECK(solve(&p, &c) == RAIMSKLO_STATUS_OUTSIDE && result.number == RAIMSKLO_SUCCESS);
    CHECK(result.evaluated == 0 && out[0] == 7 && !result.has_nonfinite);

    /* the start's step goes to infinity: what is not finite is told before what is missing */
    time = 5, c.report = NULL, p.options.has_first_step = 1, p.options.first_step = INFINITY;
    CHECK(solve(&p, &c) == RAIMSKLO_STATUS_NOT_FINITE && result.evaluated == 0);

    /* a step whose end is finite, and a pose within it that is not */
    memset(&result, 0, sizeof result), memset(&report, 0, sizeof report);
    report.previous = 0.5, report.time = 1, report.y = &y, report.n = 1;
    report.snapshot = columns, report.snapshot_len = 8;
    time = 0.75, p.n = 1;
    raimsklo_hand_out_(&p, &report, &result);
    CHECK(result.evaluated == 1 && result.time == 1 && result.y[0] == 2);
    CHECK(result.has_nonfinite && result.nonfinite_at == 0.75);

    report.snapshot_len = 5, out[0] = 7; /* damaged */
    CHECK(raimsklo_pose_at(&report, 0.75, out) == RAIMSKLO_STATUS_REFUSED && out[0] == 7);
}

/* ---- counts, caps, and what is there when a report is called ---- */

/* The counts of the steps, and whether the pose of t_eval was there when its step was reported. */
typedef struct {
    size_t largest, last;
    double time, pose[2];
    int there;
} counts;

static int counting(raimsklo_report *report, void *user) {
    counts *c = (counts *)user;
    if (report->count > c->largest) c->largest = report->count;
    c->last = report->count;
    if (report->previous < c->time && c->time <= report->time) c->there = c->pose[0] != 7;
    return 0;
}

static void counted(void) {
    counts seen_counts = {0, 0, 5, {7, 7}, 0};
    raimsklo_callbacks c = calls(turns, NULL, counting, &seen_counts);
    raimsklo_problem p = oscillation(0, 10);
    p.options.mxncf = 3, p.t_eval = &seen_counts.time, p.t_eval_len = 1, p.poses = seen_counts.pose;
    CHECK(solve(&p, &c) == RAIMSKLO_STATUS_SOLVED && result.largest_count == seen_counts.largest);
    CHECK(seen_counts.last < seen_counts.largest && seen_counts.there);
    CHECK(result.jacobian_cap == 12 && result.cap == 15 * 3 + 7 + 2 * 12);
}

/* ---- the shortest call ---- */

static void simple(void) {
    static double many[MOST];
    seen s = nothing_seen();
    raimsklo_callbacks c = calls(oscillator, NULL, NULL, &s);
    raimsklo_problem p = oscillation(0, 10);
    raimsklo_result r;
    size_t i;
    CHECK(solve(&p, &c) == RAIMSKLO_STATUS_SOLVED);
    s = nothing_seen(), r = raimsklo_solve_simple(oscillator, &s, 0, 10, start2, 2, tight, fine);
    CHECK(memcmp(r.y, result.y, sizeof r.y) == 0 && r.status == RAIMSKLO_STATUS_SOLVED && r.nfe == s.derivatives);
    CHECK(r.accepted == result.accepted && r.nfe == result.nfe && r.time == 10 && r.cap == result.cap);
    r = raimsklo_solve_simple(oscillator, &s, 0, 10, start2, 2, fine, tight); /* rtol stands before atol */
    CHECK(r.status == RAIMSKLO_STATUS_SOLVED && r.accepted != result.accepted);
    for (i = 0; i < MOST; i++) many[i] = 1;
    r = raimsklo_solve_simple(decays, &s, 0, 0.1, many, MOST, 1e-3, 1e-6);
    CHECK(r.status == RAIMSKLO_STATUS_SOLVED && fabs(r.y[MOST - 1] - exp(-0.8)) < 1e-2);
    r = raimsklo_solve_simple(NULL, NULL, 0, 10, start2, 2, tight, fine);
    CHECK(r.status == RAIMSKLO_STATUS_ARGUMENT);
    r = raimsklo_solve_simple(oscillator, &s, 0, 10, start2, 2, -1, fine);
    CHECK(r.status == RAIMSKLO_STATUS_REFUSED && r.number == RAIMSKLO_REFUSED_NEGATIVE_RELATIVE);
}

/* ---- the run against the question loop ---- */

/* The loop of raimsklo.h, which notes what the driver's callbacks note. */
static raimsklo_answer loop(const raimsklo_problem *p, const raimsklo_callbacks *c, seen *s) {
    static double work[RAIMSKLO_WORK_LENGTH(MOST)], question[RAIMSKLO_QUESTION_LENGTH(MOST)], numbers[MOST * MOST];
    static size_t pivots[MOST];
    static uint8_t session[RAIMSKLO_SESSION_LENGTH];
    size_t n = p->n, i, kind, length, work_len = RAIMSKLO_WORK_LENGTH(n), question_len = RAIMSKLO_QUESTION_LENGTH(n);
    raimsklo_options options = p->options;
    raimsklo_answer a;
    options.supplied = c->jacobian != NULL;
    a = raimsklo_start(p->x0, p->xend, p->y0, n, p->rtol, p->rtol_len, p->atol, p->atol_len, options, work, work_len,
                       pivots, n, session, sizeof session, question, question_len);
    while (raimsklo_is_question(a.number)) {
        kind = RAIMSKLO_CONTINUE, length = n;
        for (i = 0; i < n * n; i++) numbers[i] = 0;
        if (a.number == RAIMSKLO_WANTS_DERIVATIVE) {
            kind = RAIMSKLO_DERIVATIVE;
            c->derivative(a.time, question, numbers, n, s);
        } else if (a.number == RAIMSKLO_WANTS_JACOBIAN) {
            kind = RAIMSKLO_JACOBIAN, length = n * n;
            c->jacobian(a.time, question, numbers, n, s);
        } else {
            memcpy(numbers, question, n * sizeof *numbers);
        }
        if (a.number == RAIMSKLO_REPORT) {
            note(s, 103, a.previous, &a.time, 1);
            note(s, (double)a.count, question[0], question + n, RAIMSKLO_SNAPSHOT_LENGTH(n, a.order));
            if (++s->reports == s->modify) {
                kind = RAIMSKLO_MODIFIED;
                for (i = 0; i < n; i++) numbers[i] = question[i] / 2;
            }
            if (s->reports == s->stop_report) kind = RAIMSKLO_INTERRUPT;
        }
        a = raimsklo_reply(kind, numbers, length, a.time, work, work_len, pivots, n, session, sizeof session,
                           question, question_len);
    }
    return a;
}

static void same(const char *what, const raimsklo_problem *p, raimsklo_callbacks c, size_t modify, size_t stop) {
    seen plain = nothing_seen(), driver = nothing_seen();
    raimsklo_answer a;
    plain.log = plain_log, driver.log = driver_log;
    plain.modify = driver.modify = modify, plain.stop_report = driver.stop_report = stop;
    driver.scribble = modify == 0;
    a = loop(p, &c, &plain);
    c.user = &driver, c.report = watch;
    solve(p, &c);
    CHECK_AT(plain.logged == driver.logged && plain.logged > 1000 && plain.logged < LOG - 1000, what);
    CHECK_AT(memcmp(plain_log, driver_log, plain.logged * sizeof *plain_log) == 0, what);
    CHECK_AT(a.number == result.number && a.h == result.h, what);
    CHECK_AT(a.nfe == result.nfe && a.nje == result.nje && a.nlu == result.nlu, what);
    CHECK_AT(a.total == result.total && a.accepted == result.accepted && a.rejected == result.rejected, what);
    CHECK_AT(plain.reports == driver.reports && driver.reports == result.accepted, what);
    CHECK_AT(result.largest_count > 0 && result.largest_count <= result.cap, what);
}

static void bits(void) {
    static double many[MOST];
    const double slow[2] = {1, 1}, loose = 1e-4;
    size_t i;
    raimsklo_problem p = oscillation(0, 10);
    same("oscillator", &p, calls(oscillator, NULL, NULL, NULL), 0, 0);
    same("oscillator, modified", &p, calls(oscillator, NULL, NULL, NULL), 100, 0);
    same("oscillator, stopped", &p, calls(oscillator, NULL, NULL, NULL), 0, 150);
    p.options.max_steps = 200;
    same("oscillator, needs more steps", &p, calls(oscillator, NULL, NULL, NULL), 0, 0);
    p = oscillation(10, 0);
    same("oscillator, backward", &p, calls(oscillator, NULL, NULL, NULL), 50, 0);
    p = raimsklo_make_problem(0, 10, slow, 2, &tight, 1, &fine, 1);
    same("stiff", &p, calls(stiff, NULL, NULL, NULL), 0, 0);
    same("stiff, Jacobian given", &p, calls(stiff, stiff_columns, NULL, NULL), 0, 0);
    for (i = 0; i < MOST; i++) many[i] = 1;
    p = raimsklo_make_problem(0, 1, many, MOST, &loose, 1, &tight, 1);
    same("64 states", &p, calls(decays, NULL, NULL, NULL), 0, 0);
    for (i = 0; i < MOST; i++) CHECK(fabs(result.y[i] - exp(-(double)(i + 1) / 8)) < 1e-2);
}

/* Halved at the 100th report, the oscillator has half its length from there on. */
static void modified(void) {
    seen s = nothing_seen();
    raimsklo_callbacks c = calls(oscillator, NULL, watch, &s);
    raimsklo_problem p = oscillation(0, 10);
    double length;
    s.modify = 100;
    CHECK(solve(&p, &c) == RAIMSKLO_STATUS_SOLVED);
    length = sqrt(result.y[0] * result.y[0] + result.y[1] * result.y[1]);
    CHECK(fabs(length - 0.5) < 1e-3);
    CHECK(fabs(result.y[0] - cos(10.0) / 2) < 1e-3);
}

int main(void) {
    sums();
    ends();
    refusals();
    arguments();
    status_messages();
    going_on();
    stopped();
    elsewhere();
    buffers();
    first_time();
    columns();
    poses();
    beginning();
    poses_that_are_missing();
    counted();
    simple();
    bits();
    modified();
    return passed("hosts/c/test_solve");
}
