/* raimsklo_solve.h: y' = f(t, y) solved in one call, with callbacks; a header alone, over raimsklo.h, whose comment has
 * what to know before use, the numbers and the options.
 *
 * Example: y'' = -y from 0 to 10; derivative is int derivative(double time, const double *y, double *f, size_t n, void
 * *user), which sets f[0] = y[1], f[1] = -y[0] and returns 0 (examples/c/tail.c and hand.c are whole programs).
 *
 *     enum { N = 2, LENGTH = RAIMSKLO_SOLVE_LENGTH(N) };
 *     double memory[LENGTH], y0[N] = {1, 0}, rtol = 1e-6, atol = 1e-9;
 *     raimsklo_problem problem = raimsklo_make_problem(0, 10, y0, N, &rtol, 1, &atol, 1);
 *     raimsklo_callbacks callbacks = {derivative, NULL, NULL, NULL};
 *     raimsklo_result result;
 *     if (raimsklo_solve(&problem, &callbacks, memory, LENGTH, &result) == RAIMSKLO_STATUS_SOLVED)
 *         printf("%g %g\n", result.time, result.y[0]);
 *     else
 *         fprintf(stderr, "%s; %s\n", raimsklo_result_message(&result), raimsklo_advice(result.number));
 *
 * The call returns result.status, which is 0 only where the end was reached and every pose is there and finite:
 *
 *     status                        value  what stands in the result
 *     RAIMSKLO_STATUS_SOLVED          0    number 110: a success, all poses finite
 *     RAIMSKLO_STATUS_STOPPED         1    number 111: a callback returned other than 0, result.stopped is what it was
 *     RAIMSKLO_STATUS_ENDED_EARLY    -1    number 112 to 115: raimsklo_advice says what to change
 *     RAIMSKLO_STATUS_NOT_FINITE     -2    number 110, but a pose has a NaN or an infinity, first at nonfinite_at
 *     RAIMSKLO_STATUS_REFUSED        -3    number 1 to 12, with its index (9, 10, 12) or value (11)
 *     RAIMSKLO_STATUS_ARGUMENT       -4    number 0: a pointer is NULL, a tolerance is NaN, or t_eval does not go from
 *                                          x0 to xend
 *     RAIMSKLO_STATUS_MEMORY         -5    number 0: raimsklo_solve_alloc found no memory
 *     RAIMSKLO_STATUS_OUTSIDE        -6    raimsklo_pose_at: the time is not of the report's step; raimsklo_solve:
 *                                          number 110, but a time of t_eval lies in no accepted step
 *
 * Whatever the status, result.time and result.y are the pose reported last, x0 and y0 where there is none (y is 0 where
 * y0 is NULL or n above 64), and has_nonfinite and nonfinite_at are set where a pose that was reported, that of a start
 * that was taken or one of t_eval is not finite. The run itself goes on as the library has it: its requests, reports
 * and bits are those of the question loop in raimsklo.h. raimsklo_result_message has the reason in words.
 *
 * y0 may be result.y, to go on from the pose of the call before. Nothing else that is given may overlap the result.
 *
 * Callbacks return 0 to go on, anything else to stop the run, and get callbacks->user:
 *   derivative  writes f(time, y) to f, which holds NaN before each call: a forgotten entry shows as not finite
 *   jacobian    writes df_i/dy_j to columns[j*n + i]; what it does not write is 0. NULL: by differences
 *               (options.supplied follows it)
 *   report      is called after each accepted step. raimsklo_pose_at gives poses within the step. To go on from another
 *               pose, at order 1, write it to report->changed, which holds y before the call, and set report->modified
 *               to 1 (raimsklo.h says what modified does). NULL: no reports
 * They may solve other problems, with other memory. An exception or a longjmp may leave them, and with it the run: the
 * result then says STOPPED with the pose reported last, and stopped is 0. Only the memory of raimsklo_solve_alloc is
 * lost.
 *
 * t_eval: the poses at t_eval[0 .. t_eval_len], from x0 to xend in the run's order, go to poses[k*n + i]. Each is taken
 * from the first accepted step that reaches it: y at its end, else interpolated within it, before the report is called.
 * result.evaluated of them are there; the rest of poses is not written.
 *
 * Equal finite ends, x0 == xend, are a success with no step: all else is checked as ever, and one derivative is asked
 * for.
 *
 * Memory: RAIMSKLO_SOLVE_LENGTH(n) doubles or more, that hold anything and overlap nothing else; fewer are refused (3).
 * The call takes up to 13 KB of the stack beside them, the library's part included. raimsklo_solve_alloc takes them
 * from malloc, and so does raimsklo_solve_simple, the shortest call; where there is none, define RAIMSKLO_NO_MALLOC
 * before the header.
 */
#ifndef RAIMSKLO_SOLVE_H
#define RAIMSKLO_SOLVE_H

#include <string.h>
#include "raimsklo.h"

/* Doubles that raimsklo_solve is lent for n states, 1 to 64: the work, the question and the longest reply. */
#define RAIMSKLO_SOLVE_LENGTH(n) (RAIMSKLO_WORK_LENGTH(n) + RAIMSKLO_QUESTION_LENGTH(n) + (n) * (n))

enum {
    RAIMSKLO_STATUS_SOLVED = 0,
    RAIMSKLO_STATUS_STOPPED = 1,
    RAIMSKLO_STATUS_ENDED_EARLY = -1,
    RAIMSKLO_STATUS_NOT_FINITE = -2,
    RAIMSKLO_STATUS_REFUSED = -3,
    RAIMSKLO_STATUS_ARGUMENT = -4,
    RAIMSKLO_STATUS_MEMORY = -5,
    RAIMSKLO_STATUS_OUTSIDE = -6
};

/* What is solved. raimsklo_make_problem sets the options to raimsklo_defaults() and t_eval to none. */
typedef struct raimsklo_problem {
    double x0, xend;
    const double *y0;    /* n numbers; may be the y of the result */
    size_t n;
    const double *rtol;  /* 1 or n numbers, none below 0 or NaN */
    size_t rtol_len;
    const double *atol;
    size_t atol_len;
    raimsklo_options options;
    const double *t_eval;
    size_t t_eval_len;
    double *poses;       /* room for t_eval_len * n numbers */
} raimsklo_problem;

/* An accepted step. */
typedef struct raimsklo_report {
    double previous, time;
    const double *y;        /* n numbers, the pose at time */
    size_t n;
    size_t count;           /* derivatives requested in this step, at most raimsklo_cap */
    size_t accepted;        /* steps accepted so far, this one included */
    const double *snapshot; /* what raimsklo_interpolate takes */
    size_t snapshot_len;
    double *changed;        /* n numbers to write the pose to that modified goes on from */
    int modified;           /* 0; set to 1 to go on from changed */
} raimsklo_report;

typedef int (*raimsklo_derivative)(double time, const double *y, double *f, size_t n, void *user);
typedef int (*raimsklo_jacobian)(double time, const double *y, double *columns, size_t n, void *user);
typedef int (*raimsklo_observer)(raimsklo_report *report, void *user);

typedef struct raimsklo_callbacks {
    raimsklo_derivative derivative;
    raimsklo_jacobian jacobian;
    raimsklo_observer report;
    void *user;
} raimsklo_callbacks;

/* What a call gave. The counts and h are the library's where it ended the run by name. Where a derivative, a Jacobian
 * or a refusal broke it off the library says none: nfe, accepted and, with a Jacobian given, nje are then what was
 * asked for and reported, the others 0. */
typedef struct raimsklo_result {
    int status;
    size_t number;
    size_t index;
    double value;
    int stopped;
    int has_nonfinite;
    double nonfinite_at;
    double time;
    double y[RAIMSKLO_MAX_STATES];
    double h;               /* size that the next step would have had */
    size_t nfe, nje, nlu;   /* derivatives, Jacobians, factorings */
    size_t total, accepted, rejected;
    size_t largest_count;   /* of the accepted steps' counts of derivatives */
    size_t cap;             /* derivatives that no step can exceed */
    size_t jacobian_cap;    /* Jacobians that none can */
    size_t evaluated;
} raimsklo_result;

static inline const char *raimsklo_status_message(int status) {
    switch (status) {
    case RAIMSKLO_STATUS_SOLVED: return "solved";
    case RAIMSKLO_STATUS_STOPPED: return "stopped by a callback";
    case RAIMSKLO_STATUS_ENDED_EARLY: return "ended early";
    case RAIMSKLO_STATUS_NOT_FINITE: return "a pose is not finite";
    case RAIMSKLO_STATUS_REFUSED: return "refused";
    case RAIMSKLO_STATUS_ARGUMENT:
        return "a pointer is NULL, a tolerance is NaN, or t_eval does not go from x0 to xend";
    case RAIMSKLO_STATUS_MEMORY: return "no memory";
    case RAIMSKLO_STATUS_OUTSIDE: return "a time is not of an accepted step";
    default: return "unknown status";
    }
}

/* Why a call ended, in words: the library's where it ended the run early or refused it, else those of the status. */
static inline const char *raimsklo_result_message(const raimsklo_result *result) {
    int by_library = result->status == RAIMSKLO_STATUS_ENDED_EARLY || result->status == RAIMSKLO_STATUS_REFUSED;
    return by_library ? raimsklo_message(result->number) : raimsklo_status_message(result->status);
}

static inline raimsklo_problem raimsklo_make_problem(
    double x0, double xend, const double *y0, size_t n,
    const double *rtol, size_t rtol_len, const double *atol, size_t atol_len) {
    raimsklo_problem problem;
    problem.x0 = x0, problem.xend = xend;
    problem.y0 = y0, problem.n = n;
    problem.rtol = rtol, problem.rtol_len = rtol_len;
    problem.atol = atol, problem.atol_len = atol_len;
    problem.options = raimsklo_defaults();
    problem.t_eval = NULL, problem.t_eval_len = 0, problem.poses = NULL;
    return problem;
}

/* Floats are tested and made by their bits: under -ffast-math a comparison does not tell a NaN. */
#define RAIMSKLO_INFINITY_ ((uint64_t)0x7ff << 52)
#define RAIMSKLO_NAN_ ((uint64_t)0x7ff8 << 48)

/* The largest bits of the numbers without their signs: below infinity's all are finite, above it one is NaN. */
static inline uint64_t raimsklo_largest_(const double *numbers, size_t n) {
    uint64_t bits, largest = 0;
    size_t i;
    for (i = 0; i < n; i++) {
        memcpy(&bits, numbers + i, sizeof bits);
        bits &= ~((uint64_t)1 << 63);
        if (bits > largest) largest = bits;
    }
    return largest;
}

static inline int raimsklo_finite_(const double *numbers, size_t n) {
    return raimsklo_largest_(numbers, n) < RAIMSKLO_INFINITY_;
}

static inline int raimsklo_has_nan_(const double *numbers, size_t n) {
    return raimsklo_largest_(numbers, n) > RAIMSKLO_INFINITY_;
}

static inline void raimsklo_fill_(double *numbers, size_t n, uint64_t bits) {
    size_t i;
    for (i = 0; i < n; i++) memcpy(numbers + i, &bits, sizeof bits);
}

/* The pose at a time of the report's step, its ends included: 0, or RAIMSKLO_STATUS_OUTSIDE or RAIMSKLO_STATUS_REFUSED
 * (the snapshot is damaged), which leave the pose as it was. At the step's end it is y, exactly. At its beginning it is
 * interpolated: it may differ from the pose reported before by a rounding, and by up to a step's error where the order
 * has changed. */
static inline int raimsklo_pose_at(const raimsklo_report *report, double time, double *pose) {
    int forward = report->previous <= time && time <= report->time;
    int backward = report->previous >= time && time >= report->time;
    if (raimsklo_has_nan_(&time, 1) || (!forward && !backward)) return RAIMSKLO_STATUS_OUTSIDE;
    if (time == report->time) {
        memcpy(pose, report->y, report->n * sizeof *pose);
        return 0;
    }
    return raimsklo_interpolate(time, pose, report->n, report->snapshot, report->snapshot_len) == 0
        ? 0 : RAIMSKLO_STATUS_REFUSED;
}

/* From here to raimsklo_solve: its parts. */
static inline void raimsklo_look_(raimsklo_result *result, double time, const double *pose, size_t n) {
    if (!result->has_nonfinite && !raimsklo_finite_(pose, n)) result->has_nonfinite = 1, result->nonfinite_at = time;
}

/* The result is emptied but for status, x0 and y0, which is copied before, to y0 too: it may be the result's y. */
static inline void raimsklo_empty_(const raimsklo_problem *p, raimsklo_result *result, int status, double *y0) {
    size_t n = p == NULL || p->y0 == NULL || p->n > RAIMSKLO_MAX_STATES ? 0 : p->n;
    if (n > 0) memcpy(y0, p->y0, n * sizeof *y0);
    if (result == NULL) return;
    memset(result, 0, sizeof *result);
    result->status = status;
    if (p != NULL) result->time = p->x0;
    if (n > 0) memcpy(result->y, y0, n * sizeof *y0);
}

/* Whether neither end is NaN. */
static inline int raimsklo_has_ends_(const raimsklo_problem *p) {
    return !raimsklo_has_nan_(&p->x0, 1) && !raimsklo_has_nan_(&p->xend, 1);
}

/* Whether no pointer that is needed is NULL, no tolerance is NaN, and t_eval goes from x0 to xend. */
static inline int raimsklo_usable_(const raimsklo_problem *p, const raimsklo_callbacks *c, const double *memory,
                                   size_t memory_len, const raimsklo_result *result) {
    size_t i;
    double sign, before;
    if (p == NULL || c == NULL || result == NULL) return 0;
    if (p->n == 0) return 1;
    if (c->derivative == NULL || p->y0 == NULL) return 0;
    if ((p->rtol == NULL && p->rtol_len > 0) || (p->atol == NULL && p->atol_len > 0)) return 0;
    if (memory == NULL && memory_len > 0) return 0;
    if (p->t_eval_len > 0 && (p->t_eval == NULL || p->poses == NULL || !raimsklo_has_ends_(p))) return 0;
    if (p->n <= RAIMSKLO_MAX_STATES && (p->rtol_len == 1 || p->rtol_len == p->n)
        && (p->atol_len == 1 || p->atol_len == p->n)) { /* else the start refuses the lengths, and reads no entry */
        if (raimsklo_has_nan_(p->rtol, p->rtol_len) || raimsklo_has_nan_(p->atol, p->atol_len)) return 0;
    }
    sign = p->xend < p->x0 ? -1 : 1, before = p->x0;
    for (i = 0; i < p->t_eval_len; i++) {
        double time = p->t_eval[i];
        if (raimsklo_has_nan_(&time, 1) || sign * time < sign * before || sign * time > sign * p->xend) return 0;
        before = time;
    }
    return 1;
}

/* An accepted pose, or the start's, is handed out: to the result, and those of t_eval that it reaches. These are looked
 * at first, because they lie no later than the step's end. */
static inline void raimsklo_hand_out_(const raimsklo_problem *p, const raimsklo_report *report,
                                      raimsklo_result *result) {
    size_t n = p->n;
    result->time = report->time;
    memcpy(result->y, report->y, n * sizeof *result->y);
    for (; result->evaluated < p->t_eval_len; result->evaluated++) {
        double time = p->t_eval[result->evaluated], *pose = p->poses + result->evaluated * n;
        if (raimsklo_pose_at(report, time, pose) != 0) break;
        raimsklo_look_(result, time, pose, n);
    }
    raimsklo_look_(result, report->time, report->y, n);
}

/* A report is handed out; the kind of the reply, which goes on from the pose reported, but for modified. */
static inline size_t raimsklo_report_(const raimsklo_problem *p, const raimsklo_callbacks *callbacks,
                                      const raimsklo_answer *a, const double *question, double *reply,
                                      raimsklo_result *result, int *stop) {
    size_t n = p->n;
    raimsklo_report report;
    report.previous = a->previous, report.time = a->time;
    report.y = question, report.n = n;
    report.snapshot = question + n, report.snapshot_len = RAIMSKLO_SNAPSHOT_LENGTH(n, a->order);
    report.changed = reply, report.modified = 0;
    memcpy(reply, question, n * sizeof *reply);
    raimsklo_hand_out_(p, &report, result);
    if (a->number == RAIMSKLO_FIRST_REPORT) return RAIMSKLO_CONTINUE;
    report.count = a->count, report.accepted = ++result->accepted;
    if (a->count > result->largest_count) result->largest_count = a->count;
    if (callbacks->report != NULL) *stop = callbacks->report(&report, callbacks->user);
    if (!*stop && report.modified) return RAIMSKLO_MODIFIED;
    memcpy(reply, question, n * sizeof *reply); /* whatever stands in changed */
    return *stop ? RAIMSKLO_INTERRUPT : RAIMSKLO_CONTINUE;
}

static inline int raimsklo_solve(const raimsklo_problem *p, const raimsklo_callbacks *callbacks, double *memory,
                                 size_t memory_len, raimsklo_result *result) {
    uint8_t session[RAIMSKLO_SESSION_LENGTH];
    size_t pivots[RAIMSKLO_MAX_STATES];
    size_t n, work_len = 0, question_len = 0, pivots_len = 0;
    double y0[RAIMSKLO_MAX_STATES], nothing = 0, *work = &nothing, *question = &nothing, *reply = &nothing;
    raimsklo_options options;
    raimsklo_answer a;
    int stop = 0, broken_off = 0;

    raimsklo_empty_(p, result, RAIMSKLO_STATUS_ARGUMENT, y0);
    if (!raimsklo_usable_(p, callbacks, memory, memory_len, result)) return RAIMSKLO_STATUS_ARGUMENT;
    result->status = RAIMSKLO_STATUS_STOPPED, result->number = RAIMSKLO_INTERRUPTED; /* if a callback never returns */
    n = p->n, options = p->options;
    options.supplied = callbacks->jacobian != NULL;
    if (p->x0 == p->xend && raimsklo_finite_(&p->x0, 1) && raimsklo_finite_(&p->xend, 1) && !options.has_first_step) {
        double length = p->xend - p->x0; /* -0 from 0 to -0, and the first step must have its sign */
        uint64_t bits;
        memcpy(&bits, &length, sizeof bits);
        options.has_first_step = 1, options.first_step = bits >> 63 ? -1 : 1;
    }
    result->cap = raimsklo_cap(options, n), result->jacobian_cap = raimsklo_jacobian_cap(options);
    if (n > 0 && n <= RAIMSKLO_MAX_STATES && memory_len >= RAIMSKLO_SOLVE_LENGTH(n)) {
        work_len = RAIMSKLO_WORK_LENGTH(n), question_len = RAIMSKLO_QUESTION_LENGTH(n), pivots_len = n;
        work = memory, question = work + work_len, reply = question + question_len;
    } /* else the start refuses the lengths 0 in their turn */

    a = raimsklo_start(p->x0, p->xend, n > RAIMSKLO_MAX_STATES ? p->y0 : y0, n,
                       p->rtol_len ? p->rtol : &nothing, p->rtol_len, p->atol_len ? p->atol : &nothing, p->atol_len,
                       options, work, work_len, pivots, pivots_len, session, sizeof session, question, question_len);
    if (raimsklo_is_question(a.number)) raimsklo_look_(result, p->x0, y0, n);
    while (raimsklo_is_question(a.number)) {
        size_t kind = RAIMSKLO_CONTINUE, length = n;
        if (a.number == RAIMSKLO_WANTS_DERIVATIVE) {
            kind = RAIMSKLO_DERIVATIVE, result->nfe++;
            raimsklo_fill_(reply, n, RAIMSKLO_NAN_);
            broken_off = stop = callbacks->derivative(a.time, question, reply, n, callbacks->user);
        } else if (a.number == RAIMSKLO_WANTS_JACOBIAN) {
            kind = RAIMSKLO_JACOBIAN, length = n * n, result->nje++;
            raimsklo_fill_(reply, length, 0);
            broken_off = stop = callbacks->jacobian(a.time, question, reply, n, callbacks->user);
        } else {
            kind = raimsklo_report_(p, callbacks, &a, question, reply, result, &stop);
        }
        if (broken_off) break;
        a = raimsklo_reply(kind, reply, length, a.time, work, work_len, pivots, pivots_len,
                           session, sizeof session, question, question_len);
    }

    result->number = broken_off ? (size_t)RAIMSKLO_INTERRUPTED : a.number;
    result->stopped = stop;
    result->index = a.index, result->value = a.value;
    if (raimsklo_is_end(a.number)) {
        result->h = a.h;
        result->nfe = a.nfe, result->nje = a.nje, result->nlu = a.nlu;
        result->total = a.total, result->accepted = a.accepted, result->rejected = a.rejected;
        if (n == 0) result->evaluated = p->t_eval_len; /* poses of no numbers */
    }
    if (result->number == RAIMSKLO_SUCCESS) {
        result->status = RAIMSKLO_STATUS_SOLVED;
        if (result->evaluated < p->t_eval_len) result->status = RAIMSKLO_STATUS_OUTSIDE;
        if (result->has_nonfinite) result->status = RAIMSKLO_STATUS_NOT_FINITE;
    } else if (result->number == RAIMSKLO_INTERRUPTED) result->status = RAIMSKLO_STATUS_STOPPED;
    else result->status = raimsklo_is_end(a.number) ? RAIMSKLO_STATUS_ENDED_EARLY : RAIMSKLO_STATUS_REFUSED;
    return result->status;
}

#ifndef RAIMSKLO_NO_MALLOC
#include <stdlib.h>

/* raimsklo_solve with memory from malloc, which is free again when it returns. */
static inline int raimsklo_solve_alloc(const raimsklo_problem *p, const raimsklo_callbacks *callbacks,
                                       raimsklo_result *result) {
    size_t length = p == NULL || p->n > RAIMSKLO_MAX_STATES ? 0 : RAIMSKLO_SOLVE_LENGTH(p->n);
    double y0[RAIMSKLO_MAX_STATES], *memory = length == 0 ? NULL : (double *)malloc(length * sizeof(double));
    int status;
    if (memory == NULL && length > 0) {
        raimsklo_empty_(p, result, RAIMSKLO_STATUS_MEMORY, y0);
        return RAIMSKLO_STATUS_MEMORY;
    }
    status = raimsklo_solve(p, callbacks, memory, length, result);
    free(memory);
    return status;
}

/* The shortest call: one rtol and one atol for all states, the default options, the Jacobian by differences, no
 * reports, memory from malloc. */
static inline raimsklo_result raimsklo_solve_simple(raimsklo_derivative derivative, void *user, double x0, double xend,
                                                    const double *y0, size_t n, double rtol, double atol) {
    raimsklo_problem problem = raimsklo_make_problem(x0, xend, y0, n, &rtol, 1, &atol, 1);
    raimsklo_callbacks callbacks;
    raimsklo_result result;
    callbacks.derivative = derivative, callbacks.jacobian = NULL, callbacks.report = NULL, callbacks.user = user;
    raimsklo_solve_alloc(&problem, &callbacks, &result);
    return result;
}
#endif

#endif
