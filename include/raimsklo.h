/* raimsklo.h: LSODA, the automatic Adams/BDF solver for ordinary differential equations y' = f(t, y), as a machine that
 * asks. The library never calls the host, allocates nothing and has no globals. A run is one raimsklo_start and then
 * replies: each call answers what is wanted next, and the host replies with it, until the run has ended.
 * include/raimsklo_solve.h is that loop with callbacks, in one call.
 *
 * Know before use: in whole runs the order never exceeds 2, so at the same tolerances, 1e-6 to 1e-8, it asks for 2 to
 * 11 times the derivatives of ODEPACK's LSODA and its error is 3 to 20 times as large, more on smooth problems
 * (docs/SPEED.md), from three states on the linear solve may answer another system, and Robertson's problem to 4e10
 * ends in wrong numbers: all of it the published Rust's, kept bit for bit (docs/DIFFERENCES.md). In return every run
 * ends, by name or by a numbered refusal, its work is capped beforehand, its bits are the same everywhere, and a pose
 * comes only from an accepted step.
 *
 *     number  meaning                        the host replies with (kind)
 *     100     derivative wanted              RAIMSKLO_DERIVATIVE, n numbers: f(time, y), y being question[0 .. n]
 *     101     Jacobian wanted                RAIMSKLO_JACOBIAN, n*n numbers, column by column: df_i/dy_j at j*n + i
 *     102     first report, before any step  RAIMSKLO_CONTINUE, _INTERRUPT or _MODIFIED, with y (n numbers) and a time
 *     103     report: a step was accepted    the same
 *
 *     number  the run has ended              what to change
 *     110     success                        nothing; a pose may still be NaN or infinite where a derivative was: look
 *     111     interrupted by the host        nothing
 *     112     needs more steps               raise max_steps, give a first_step, loosen the tolerances, shorten the
 *                                            interval, or look for a pole of the right side near this time
 *     113     step too small                 loosen the tolerances, lower min_step, or look for a jump or a pole of the
 *                                            right side near this time
 *     114     poor convergence               give a Jacobian, raise maxcor or mxncf, lower min_step, or look for a jump
 *                                            or a pole of the right side near this time
 *     115     coefficient gap                set mxordn to 5 or less
 *
 *     number  refused
 *      1      n above 64                                  10      atol[index] below 0
 *      2      a tolerance list not 1 or n long            11      first step `value` zero, NaN or away from the end
 *      3      a length is wrong                           12      weight rtol*|y|+atol at `index` at most 0
 *      4      a setting above 1,000,000                   13      session or pivots hold a value out of its range
 *      5      max_steps 0                                 14      another kind or length was asked for, or it has ended
 *      6      maxcor 0                                    15      raimsklo_interpolate: the snapshot's header
 *      7      mxordn or mxords 0                          16      raimsklo_interpolate: the pose's length
 *      8      banded storage                              17      raimsklo_interpolate: history too short, or h zero
 *      9      rtol[index] below 0
 *
 * A start checks 1 to 11 in this order, 9 before 10 at each index; with no states it is a success at once. A reply is
 * checked for 3, 13 and 14. A refused call leaves everything as it was, and another one can be made; but 11 and 12 in a
 * reply end the run. 11 comes there after the first derivative, for the first step computed from it; 12 after the first
 * derivative, or at the end of an accepted step, whose pose is then not reported. They leave work and pivots as far as
 * the call had come and a session that has ended (14 from then on), and there are no counts. What ends a run, 11 and 12
 * included, leaves the question as it was: after 12 and 113 to 115 a trial pose may stand there that was not accepted.
 * The pose to keep is that of the last report; the step that 12 or 115 ends at was accepted, and is not reported.
 *
 * Reports. A pose is handed out by a report alone, and a report follows an accepted step alone. After a step `continue`
 * keeps y and time as given: hand back those of the report, unless the run shall go on from others. `modified` takes y
 * as given, sets the time to the step's end whatever time is given, asks for one derivative, which belongs to no step,
 * and restarts at order 1 in the Adams family, with weights 1/max(|y|, 2^-52) until the next step is accepted. At the
 * first report `continue` keeps the time as given and ignores y; `modified` takes time and y, asks for one derivative
 * and keeps the weights. `interrupt` ends the run with 111.
 *
 * What the host lends, and does not write between the calls of one run, but for `question`:
 *     work      RAIMSKLO_WORK_LENGTH(n) doubles, raimsklo_work_length(n) at run time
 *     pivots    RAIMSKLO_PIVOTS_LENGTH(n) size_t
 *     session   RAIMSKLO_SESSION_LENGTH bytes, raimsklo_session_length() (docs/SESSION.md)
 *     question  RAIMSKLO_QUESTION_LENGTH(n) doubles, raimsklo_question_length(n): y stands first; after a report 103
 *               the snapshot stands from n on, RAIMSKLO_SNAPSHOT_LENGTH(n, order) numbers for raimsklo_interpolate,
 *               which may be copied and kept
 * They may hold anything before a start. No pointer is NULL. What is lent must not overlap anything else that a call is
 * given: so a reply's numbers are the host's own array, not the question. y0, rtol and atol are read by the start alone
 * and may overlap each other.
 *
 * Threads. Runs with buffers of their own are independent, in any number of threads. The calls of one run come one
 * after the other, from whichever thread. A copy of what is lent, with the last answer, is a checkpoint: in the same
 * version the same replies lead to the same bits. For these the processor must round to nearest and keep subnormals,
 * which a program linked with -ffast-math does not.
 *
 * Work is capped. Where mxncf 0 counts as 1, a step asks for at most
 *     (mxncf+9)*maxcor + 7   derivatives if it began in the Adams family,
 *     (mxncf+12)*maxcor + 7  if it began in the other, BDF,
 *     and n more for each Jacobian by differences; Jacobians, by differences or not, are at most mxncf+9.
 * raimsklo_cap gives the larger of the two, difference Jacobians included, raimsklo_jacobian_cap the last.
 *
 * Example: y'' = -y from 0 to 10, every accepted step printed (examples/c/oscillator.c is the whole program).
 *
 *     enum { N = 2, WORK = RAIMSKLO_WORK_LENGTH(N), QUESTION = RAIMSKLO_QUESTION_LENGTH(N) };
 *     double work[WORK], question[QUESTION], f[N], y0[N] = {1, 0}, rtol = 1e-6, atol = 1e-9;
 *     size_t pivots[N], kind;
 *     uint8_t session[RAIMSKLO_SESSION_LENGTH];
 *     raimsklo_answer a = raimsklo_start(0, 10, y0, N, &rtol, 1, &atol, 1, raimsklo_defaults(),
 *                                        work, WORK, pivots, N, session, sizeof session, question, QUESTION);
 *     while (raimsklo_is_question(a.number)) {
 *         f[0] = question[0], f[1] = question[1], kind = RAIMSKLO_CONTINUE;
 *         if (a.number == RAIMSKLO_WANTS_DERIVATIVE)
 *             f[0] = question[1], f[1] = -question[0], kind = RAIMSKLO_DERIVATIVE;
 *         if (a.number == RAIMSKLO_REPORT) printf("%g %g\n", a.time, question[0]);
 *         a = raimsklo_reply(kind, f, N, a.time, work, WORK, pivots, N, session, sizeof session, question, QUESTION);
 *     }
 *     if (a.number != RAIMSKLO_SUCCESS)
 *         fprintf(stderr, "%s: %s\n", raimsklo_message(a.number), raimsklo_advice(a.number));
 */
#ifndef RAIMSKLO_H
#define RAIMSKLO_H

#include <stddef.h>
#include <stdint.h>

/* The version, as numbers, and as text made of them. */
#define RAIMSKLO_VERSION_MAJOR 0
#define RAIMSKLO_VERSION_MINOR 2
#define RAIMSKLO_VERSION_PATCH 0
#define RAIMSKLO_VERSION_TEXT_(a, b, c) #a "." #b "." #c
#define RAIMSKLO_VERSION_TEXT(a, b, c) RAIMSKLO_VERSION_TEXT_(a, b, c)
#define RAIMSKLO_VERSION \
    RAIMSKLO_VERSION_TEXT(RAIMSKLO_VERSION_MAJOR, RAIMSKLO_VERSION_MINOR, RAIMSKLO_VERSION_PATCH)

/* made by tools/record.py: the length of a session */
#define RAIMSKLO_SESSION_LENGTH 1448
/* end of the length of a session */

/* What n may be at most, and a setting. */
#define RAIMSKLO_MAX_STATES 64
#define RAIMSKLO_MAX_SETTING 1000000

/* Lengths of what is lent for n states, 1 to 64, for arrays of a fixed length. */
#define RAIMSKLO_WORK_LENGTH(n) ((n) * (n) + 19 * (n))
#define RAIMSKLO_PIVOTS_LENGTH(n) (n)
#define RAIMSKLO_QUESTION_LENGTH(n) (14 * (n) + 6)
#define RAIMSKLO_SNAPSHOT_LENGTH(n, order) (6 + ((order) + 1) * (n))

#ifdef __cplusplus
extern "C" {
#endif

/* What a call answers or a run ends with. */
enum {
    RAIMSKLO_WANTS_DERIVATIVE = 100,
    RAIMSKLO_WANTS_JACOBIAN = 101,
    RAIMSKLO_FIRST_REPORT = 102,
    RAIMSKLO_REPORT = 103,
    RAIMSKLO_SUCCESS = 110,
    RAIMSKLO_INTERRUPTED = 111,
    RAIMSKLO_NEEDS_MORE_STEPS = 112,
    RAIMSKLO_STEP_TOO_SMALL = 113,
    RAIMSKLO_POOR_CONVERGENCE = 114,
    RAIMSKLO_COEFFICIENT_GAP = 115
};

/* Why a call was refused. */
enum {
    RAIMSKLO_REFUSED_TOO_MANY_STATES = 1,
    RAIMSKLO_REFUSED_TOLERANCE_LENGTH = 2,
    RAIMSKLO_REFUSED_BUFFER_LENGTH = 3,
    RAIMSKLO_REFUSED_SETTING_TOO_LARGE = 4,
    RAIMSKLO_REFUSED_NO_STEPS = 5,
    RAIMSKLO_REFUSED_NO_ITERATIONS = 6,
    RAIMSKLO_REFUSED_NO_ORDER = 7,
    RAIMSKLO_REFUSED_BANDED = 8,
    RAIMSKLO_REFUSED_NEGATIVE_RELATIVE = 9,
    RAIMSKLO_REFUSED_NEGATIVE_ABSOLUTE = 10,
    RAIMSKLO_REFUSED_FIRST_STEP = 11,
    RAIMSKLO_REFUSED_WEIGHT = 12,
    RAIMSKLO_REFUSED_DAMAGED_SESSION = 13,
    RAIMSKLO_REFUSED_UNASKED = 14,
    RAIMSKLO_REFUSED_DAMAGED_SNAPSHOT = 15,
    RAIMSKLO_REFUSED_POSE_LENGTH = 16,
    RAIMSKLO_REFUSED_SHORT_SNAPSHOT = 17
};

/* The kind of a reply. */
enum {
    RAIMSKLO_DERIVATIVE = 1,
    RAIMSKLO_JACOBIAN = 2,
    RAIMSKLO_CONTINUE = 3,
    RAIMSKLO_INTERRUPT = 4,
    RAIMSKLO_MODIFIED = 5
};

/* The options of a run. Begin with raimsklo_defaults(). */
typedef struct raimsklo_options {
    size_t max_steps;      /* largest number of accepted steps; 100000 */
    size_t mxordn;         /* largest Adams order; 12, above acts as 12 */
    size_t mxords;         /* largest BDF order; 5, above acts as 5 */
    size_t maxcor;         /* largest number of corrector iterations; 3 */
    size_t msbp;           /* steps between Jacobian checks; 20, 0 acts as 1 */
    size_t mxncf;          /* convergence failures in a step that end it; 10, 0 acts as 1 */
    size_t banded;         /* 0; banded storage is refused */
    size_t supplied;       /* 0: the Jacobian by differences; else the host is asked for it */
    size_t has_max_step;   /* 0: the interval is the largest step; else max_step */
    size_t has_min_step;   /* 0: no smallest step; else min_step */
    size_t has_first_step; /* 0: the first step is computed; else first_step */
    double max_step;       /* by its size, without the sign; 0 and NaN are none */
    double min_step;       /* the same; beyond the interval it leads nowhere */
    double first_step;     /* of the sign of xend - x0; where the error is 0, as on a straight line, steps never grow */
} raimsklo_options;

/* What a call answers. Fields that a number has no use for are 0. */
typedef struct raimsklo_answer {
    size_t number;
    size_t index;          /* of 9, 10, 12 */
    double value;          /* of 11 */
    double time;           /* of a question or a report */
    double previous;       /* a report's previous time */
    size_t count;          /* derivatives requested in the report's step; 0 at the first report */
    size_t order;          /* order of the report's snapshot; 0: there is none */
    double h;              /* at an end: step size, evaluations, steps */
    size_t nfe, nje, nlu;  /* derivatives, Jacobians, factorings */
    size_t total, accepted, rejected;
} raimsklo_answer;

raimsklo_options raimsklo_defaults(void);
size_t raimsklo_work_length(size_t n);     /* 0 where n is above 64 */
size_t raimsklo_question_length(size_t n); /* 0 where n is above 64 */
size_t raimsklo_session_length(void);

/* A run from x0 to xend begins, in either direction. With no states (y0_len 0) it is a success at once: h and all
 * counts 0, nothing written. Equal ends are refused (11) where no first step is given, and a success where one is.
 * Tolerances bound the error of one step; over a run errors add up. The last step may go beyond xend by a rounding. */
raimsklo_answer raimsklo_start(
    double x0, double xend,
    const double *y0, size_t y0_len,
    const double *rtol, size_t rtol_len, /* 1 or n numbers, none below 0; a NaN passes, and leaves the error of that */
    const double *atol, size_t atol_len, /* state uncontrolled */
    raimsklo_options options,
    double *work, size_t work_len,
    size_t *pivots, size_t pivots_len,
    uint8_t *session, size_t session_len,
    double *question, size_t question_len);

/* The host's reply. `time` matters in a reply to a report alone. */
raimsklo_answer raimsklo_reply(
    size_t kind,
    const double *numbers, size_t numbers_len,
    double time,
    double *work, size_t work_len,
    size_t *pivots, size_t pivots_len,
    uint8_t *session, size_t session_len,
    double *question, size_t question_len);

/* The pose at time xi from a report's snapshot, which stands from question + n on. Answers 0, or 15, 16 or 17, which
 * leave the pose as it was. What was accepted lies between the report's previous and time: beyond, it extrapolates. A
 * snapshot as long as the pose is copied. */
size_t raimsklo_interpolate(double xi, double *pose, size_t pose_len, const double *snapshot, size_t snapshot_len);

/* The root of order k (2 to 13) of x, as the solver takes it; NaN for another order. */
double raimsklo_root(double x, size_t k);

#ifdef __cplusplus
}
#endif

/* What a number is: while it is a question, the run goes on. */
static inline int raimsklo_is_question(size_t number) {
    return number >= RAIMSKLO_WANTS_DERIVATIVE && number <= RAIMSKLO_REPORT;
}

static inline int raimsklo_is_end(size_t number) {
    return number >= RAIMSKLO_SUCCESS && number <= RAIMSKLO_COEFFICIENT_GAP;
}

static inline int raimsklo_is_refusal(size_t number) {
    return number >= RAIMSKLO_REFUSED_TOO_MANY_STATES && number <= RAIMSKLO_REFUSED_SHORT_SNAPSHOT;
}

/* What a number means, in words. */
static inline const char *raimsklo_message(size_t number) {
    switch (number) {
    case RAIMSKLO_REFUSED_TOO_MANY_STATES: return "more than 64 states";
    case RAIMSKLO_REFUSED_TOLERANCE_LENGTH: return "a tolerance list is neither 1 long nor as long as y0";
    case RAIMSKLO_REFUSED_BUFFER_LENGTH: return "the length of a buffer is wrong";
    case RAIMSKLO_REFUSED_SETTING_TOO_LARGE: return "a setting is above 1,000,000";
    case RAIMSKLO_REFUSED_NO_STEPS: return "max_steps is 0";
    case RAIMSKLO_REFUSED_NO_ITERATIONS: return "maxcor is 0";
    case RAIMSKLO_REFUSED_NO_ORDER: return "mxordn or mxords is 0";
    case RAIMSKLO_REFUSED_BANDED: return "banded storage is not supported";
    case RAIMSKLO_REFUSED_NEGATIVE_RELATIVE: return "an entry of rtol is below 0";
    case RAIMSKLO_REFUSED_NEGATIVE_ABSOLUTE: return "an entry of atol is below 0";
    case RAIMSKLO_REFUSED_FIRST_STEP: return "the first step is zero, NaN or leads away from the end";
    case RAIMSKLO_REFUSED_WEIGHT: return "the weight rtol*|y|+atol of a state is at most 0";
    case RAIMSKLO_REFUSED_DAMAGED_SESSION: return "the session holds a value out of its range";
    case RAIMSKLO_REFUSED_UNASKED: return "a reply of another kind or length was asked for, or the run has ended";
    case RAIMSKLO_REFUSED_DAMAGED_SNAPSHOT: return "the snapshot's header is damaged";
    case RAIMSKLO_REFUSED_POSE_LENGTH: return "the pose has another length than the snapshot's states";
    case RAIMSKLO_REFUSED_SHORT_SNAPSHOT: return "the snapshot's history is too short or its step is zero";
    case RAIMSKLO_WANTS_DERIVATIVE: return "a derivative is wanted";
    case RAIMSKLO_WANTS_JACOBIAN: return "a Jacobian is wanted";
    case RAIMSKLO_FIRST_REPORT: return "first report, before any step";
    case RAIMSKLO_REPORT: return "report: a step was accepted";
    case RAIMSKLO_SUCCESS: return "success";
    case RAIMSKLO_INTERRUPTED: return "interrupted";
    case RAIMSKLO_NEEDS_MORE_STEPS: return "needs more steps";
    case RAIMSKLO_STEP_TOO_SMALL: return "step too small";
    case RAIMSKLO_POOR_CONVERGENCE: return "poor convergence";
    case RAIMSKLO_COEFFICIENT_GAP: return "coefficient gap";
    default: return "unknown number";
    }
}

/* What to change after an end, in words; empty where there is nothing to change. */
static inline const char *raimsklo_advice(size_t number) {
    switch (number) {
    case RAIMSKLO_NEEDS_MORE_STEPS:
        return "raise max_steps, give a first_step, loosen the tolerances, shorten the interval, "
               "or look for a pole of the right side near this time";
    case RAIMSKLO_STEP_TOO_SMALL:
        return "loosen the tolerances, lower min_step, or look for a jump or a pole of the right side near this time";
    case RAIMSKLO_POOR_CONVERGENCE:
        return "give a Jacobian, raise maxcor or mxncf, lower min_step, "
               "or look for a jump or a pole of the right side near this time";
    case RAIMSKLO_COEFFICIENT_GAP:
        return "set mxordn to 5 or less";
    default:
        return "";
    }
}

/* Jacobians that no step asks for more than, by differences or not. Where a start refuses mxncf as too large (4) it is
 * 0: there is no step. */
static inline size_t raimsklo_jacobian_cap(raimsklo_options options) {
    if (options.mxncf > RAIMSKLO_MAX_SETTING) return 0;
    return (options.mxncf == 0 ? 1 : options.mxncf) + 9;
}

/* Derivatives that no step of n states asks for more than, in either family, those of its difference Jacobians
 * included; 0 where mxncf, maxcor or n is too large for a start. */
static inline size_t raimsklo_cap(raimsklo_options options, size_t n) {
    size_t jacobians = raimsklo_jacobian_cap(options);
    if (jacobians == 0 || options.maxcor > RAIMSKLO_MAX_SETTING || n > RAIMSKLO_MAX_STATES) return 0;
    return (jacobians + 3) * options.maxcor + 7 + (options.supplied == 0 ? n * jacobians : 0);
}

#endif
