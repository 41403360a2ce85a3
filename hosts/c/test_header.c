/* include/raimsklo.h against the library: names, texts, lengths and caps. */
#include <string.h>
#include "check.h"
#include "raimsklo.h"

enum { LAST = 200 };

/* The texts of all numbers; NULL stands for an unknown one. */
static const char *messages[LAST + 1], *advices[LAST + 1];

static void set_texts(void) {
    messages[1] = "more than 64 states";
    messages[2] = "a tolerance list is neither 1 long nor as long as y0";
    messages[3] = "the length of a buffer is wrong";
    messages[4] = "a setting is above 1,000,000";
    messages[5] = "max_steps is 0";
    messages[6] = "maxcor is 0";
    messages[7] = "mxordn or mxords is 0";
    messages[8] = "banded storage is not supported";
    messages[9] = "an entry of rtol is below 0";
    messages[10] = "an entry of atol is below 0";
    messages[11] = "the first step is zero, NaN or leads away from the end";
    messages[12] = "the weight rtol*|y|+atol of a state is at most 0";
    messages[13] = "the session holds a value out of its range";
    messages[14] = "a reply of another kind or length was asked for, or the run has ended";
    messages[15] = "the snapshot's header is damaged";
    messages[16] = "the pose has another length than the snapshot's states";
    messages[17] = "the snapshot's history is too short or its step is zero";
    messages[100] = "a derivative is wanted";
    messages[101] = "a Jacobian is wanted";
    messages[102] = "first report, before any step";
    messages[103] = "report: a step was accepted";
    messages[110] = "success";
    messages[111] = "interrupted";
    messages[112] = "needs more steps";
    messages[113] = "step too small";
    messages[114] = "poor convergence";
    messages[115] = "coefficient gap";
    advices[112] = "raise max_steps, give a first_step, loosen the tolerances, shorten the interval, or look for a "
                   "pole of the right side near this time";
    advices[113] = "loosen the tolerances, lower min_step, or look for a jump or a pole of the right side near this "
                   "time";
    advices[114] = "give a Jacobian, raise maxcor or mxncf, lower min_step, or look for a jump or a pole of the right "
                   "side near this time";
    advices[115] = "set mxordn to 5 or less";
}

static void texts(void) {
    size_t number;
    set_texts();
    for (number = 0; number <= LAST; number++) {
        const char *message = messages[number] == NULL ? "unknown number" : messages[number];
        CHECK_AT(strcmp(raimsklo_message(number), message) == 0, message);
        CHECK_AT(strcmp(raimsklo_advice(number), advices[number] == NULL ? "" : advices[number]) == 0, message);
        CHECK_AT(raimsklo_is_refusal(number) == (messages[number] != NULL && number < 100), message);
        CHECK_AT(raimsklo_is_question(number) == (messages[number] != NULL && number >= 100 && number < 110), message);
        CHECK_AT(raimsklo_is_end(number) == (messages[number] != NULL && number >= 110), message);
    }
    CHECK(strcmp(raimsklo_message((size_t)-1), "unknown number") == 0);
}

static void version(void) {
    char text[40];
    snprintf(text, sizeof text, "%d.%d.%d", RAIMSKLO_VERSION_MAJOR, RAIMSKLO_VERSION_MINOR, RAIMSKLO_VERSION_PATCH);
    CHECK(strcmp(text, RAIMSKLO_VERSION) == 0);
}

static void lengths(void) {
    size_t n;
    for (n = 0; n <= RAIMSKLO_MAX_STATES; n++) {
        CHECK(RAIMSKLO_WORK_LENGTH(n) == raimsklo_work_length(n));
        CHECK(RAIMSKLO_QUESTION_LENGTH(n) == raimsklo_question_length(n));
        CHECK(RAIMSKLO_QUESTION_LENGTH(n) == n + RAIMSKLO_SNAPSHOT_LENGTH(n, 12)); /* the largest order's snapshot */
    }
    CHECK(raimsklo_work_length(RAIMSKLO_MAX_STATES + 1) == 0);
    CHECK(raimsklo_question_length(RAIMSKLO_MAX_STATES + 1) == 0);
    CHECK(raimsklo_session_length() == RAIMSKLO_SESSION_LENGTH);
    CHECK(RAIMSKLO_WORK_LENGTH(1 + 1) * 2 == 84 && RAIMSKLO_QUESTION_LENGTH(1 + 1) * 2 == 68);
    CHECK(RAIMSKLO_PIVOTS_LENGTH(1 + 1) * 2 == 4 && RAIMSKLO_SNAPSHOT_LENGTH(1 + 1, 1 + 1) * 2 == 24);
}

/* Worked by hand. */
static void caps(void) {
    raimsklo_options o = raimsklo_defaults(); /* mxncf 10, maxcor 3 */
    CHECK(raimsklo_cap(o, 0) == 73);
    CHECK(raimsklo_cap(o, 2) == 73 + 2 * 19);
    CHECK(raimsklo_cap(o, 24) == 529);
    CHECK(raimsklo_jacobian_cap(o) == 19);
    o.supplied = 2; /* anything but 0 */
    CHECK(raimsklo_cap(o, 24) == 73);
    o.msbp = RAIMSKLO_MAX_SETTING + 1; /* which no cap depends on */
    CHECK(raimsklo_cap(o, 24) == 73);
    CHECK(raimsklo_jacobian_cap(o) == 19);
    o.supplied = 0, o.mxncf = 1;
    CHECK(raimsklo_cap(o, 2) == 46 + 2 * 10);
    CHECK(raimsklo_jacobian_cap(o) == 10);
    o.mxncf = 0;
    CHECK(raimsklo_cap(o, 2) == 46 + 2 * 10);
    CHECK(raimsklo_jacobian_cap(o) == 10);
    o.mxncf = 1000000, o.maxcor = 1000000;
    CHECK(raimsklo_cap(o, 64) == 1000076000583u);
    CHECK(raimsklo_cap(o, 65) == 0);
    o.maxcor = 1000001;
    CHECK(raimsklo_cap(o, 1) == 0);
    o.maxcor = (size_t)-1;
    CHECK(raimsklo_cap(o, 1) == 0);
    o.maxcor = 3, o.mxncf = (size_t)-1;
    CHECK(raimsklo_cap(o, 1) == 0 && raimsklo_jacobian_cap(o) == 0);
    o.mxncf = 1000001;
    CHECK(raimsklo_cap(o, 1) == 0 && raimsklo_jacobian_cap(o) == 0);
}

enum { N = 2, WORK = RAIMSKLO_WORK_LENGTH(N), QUESTION = RAIMSKLO_QUESTION_LENGTH(N) };
static double work[WORK], question[QUESTION];
static size_t pivots[N];
static uint8_t session[RAIMSKLO_SESSION_LENGTH];

static raimsklo_answer start(size_t n, double rtol, double atol, size_t tolerances, size_t session_len,
                             raimsklo_options options) {
    static double y0[RAIMSKLO_MAX_STATES + 1];
    double relative[3] = {1e-3, 1e-3, 1e-3}, absolute[3] = {1e-6, 1e-6, 1e-6};
    y0[0] = 1, relative[1] = rtol, absolute[1] = atol;
    return raimsklo_start(0, 1, y0, n, relative, tolerances, absolute, tolerances, options,
                          work, WORK, pivots, N, session, session_len, question, QUESTION);
}

static double f[N]; /* what a reply gives */

static raimsklo_answer reply(size_t kind, size_t length) {
    return raimsklo_reply(kind, f, length, 0, work, WORK, pivots, N, session, sizeof session, question, QUESTION);
}

/* Each refusal by its name, from the library itself. */
static void refusals(void) {
    raimsklo_options good = raimsklo_defaults(), o = good;
    double snapshot[8] = {1, 1, 1, 0.5, 0.5, 0, 2, 0.5}, pose = 9; /* the sum (7): 1.75 at 0.75 */
    raimsklo_answer a;
    CHECK(start(65, 0, 0, 1, sizeof session, good).number == RAIMSKLO_REFUSED_TOO_MANY_STATES);
    CHECK(start(N, 0, 0, 3, sizeof session, good).number == RAIMSKLO_REFUSED_TOLERANCE_LENGTH);
    CHECK(start(N, 0, 0, 1, sizeof session - 1, good).number == RAIMSKLO_REFUSED_BUFFER_LENGTH);
    o.msbp = RAIMSKLO_MAX_SETTING + 1;
    CHECK(start(N, 0, 0, 1, sizeof session, o).number == RAIMSKLO_REFUSED_SETTING_TOO_LARGE);
    o = good, o.max_steps = 0;
    CHECK(start(N, 0, 0, 1, sizeof session, o).number == RAIMSKLO_REFUSED_NO_STEPS);
    o = good, o.maxcor = 0;
    CHECK(start(N, 0, 0, 1, sizeof session, o).number == RAIMSKLO_REFUSED_NO_ITERATIONS);
    o = good, o.mxords = 0;
    CHECK(start(N, 0, 0, 1, sizeof session, o).number == RAIMSKLO_REFUSED_NO_ORDER);
    o = good, o.banded = 1;
    CHECK(start(N, 0, 0, 1, sizeof session, o).number == RAIMSKLO_REFUSED_BANDED);
    a = start(N, -1, 1, N, sizeof session, good);
    CHECK(a.number == RAIMSKLO_REFUSED_NEGATIVE_RELATIVE && a.index == 1);
    a = start(N, 1, -1, N, sizeof session, good);
    CHECK(a.number == RAIMSKLO_REFUSED_NEGATIVE_ABSOLUTE && a.index == 1);
    o = good, o.has_first_step = 1, o.first_step = -0.25;
    a = start(N, 1, 1, 1, sizeof session, o);
    CHECK(a.number == RAIMSKLO_REFUSED_FIRST_STEP && a.value == -0.25);
    CHECK(start(N, 1, 0, N, sizeof session, good).number == RAIMSKLO_WANTS_DERIVATIVE);
    a = reply(RAIMSKLO_DERIVATIVE, N);
    CHECK(a.number == RAIMSKLO_REFUSED_WEIGHT && a.index == 1);
    CHECK(reply(RAIMSKLO_DERIVATIVE, N).number == RAIMSKLO_REFUSED_UNASKED);
    memset(session, 0xff, sizeof session);
    CHECK(reply(RAIMSKLO_DERIVATIVE, N).number == RAIMSKLO_REFUSED_DAMAGED_SESSION);
    CHECK(start(N, 0, 0, 1, sizeof session, good).number == RAIMSKLO_WANTS_DERIVATIVE);
    CHECK(reply(RAIMSKLO_JACOBIAN, N).number == RAIMSKLO_REFUSED_UNASKED);
    CHECK(reply(RAIMSKLO_DERIVATIVE, N).number == RAIMSKLO_FIRST_REPORT);
    CHECK(reply(RAIMSKLO_INTERRUPT, N).number == RAIMSKLO_INTERRUPTED);

    CHECK(raimsklo_interpolate(0.75, &pose, 1, snapshot, 5) == RAIMSKLO_REFUSED_DAMAGED_SNAPSHOT);
    CHECK(raimsklo_interpolate(0.75, &pose, 0, snapshot, 8) == RAIMSKLO_REFUSED_POSE_LENGTH);
    CHECK(raimsklo_interpolate(0.75, &pose, 1, snapshot, 7) == RAIMSKLO_REFUSED_SHORT_SNAPSHOT);
    CHECK(pose == 9);
    CHECK(raimsklo_interpolate(0.75, &pose, 1, snapshot, RAIMSKLO_SNAPSHOT_LENGTH(1, 1)) == 0 && pose == 1.75);
    snapshot[3] = 0;
    CHECK(raimsklo_interpolate(0.75, &pose, 1, snapshot, 8) == RAIMSKLO_REFUSED_SHORT_SNAPSHOT);
}

/* All that is lent, to be held against itself later. */
typedef struct {
    double work[WORK], question[QUESTION];
    size_t pivots[N];
    uint8_t session[RAIMSKLO_SESSION_LENGTH];
} lent;

static lent lent_now(void) {
    lent l;
    memcpy(l.work, work, sizeof work), memcpy(l.question, question, sizeof question);
    memcpy(l.pivots, pivots, sizeof pivots), memcpy(l.session, session, sizeof session);
    return l;
}

static int unchanged(const lent *l) {
    return memcmp(l->work, work, sizeof work) == 0 && memcmp(l->question, question, sizeof question) == 0
        && memcmp(l->pivots, pivots, sizeof pivots) == 0 && memcmp(l->session, session, sizeof session) == 0;
}

/* An answer of 11 or 12 in a reply: no counts, the question as it was, and 14 from then on, which changes nothing. */
static void ended_by(size_t number, const raimsklo_answer *a, const lent *before) {
    lent after = lent_now();
    CHECK_AT(a->number == number && a->nfe == 0 && a->accepted == 0 && a->time == 0, raimsklo_message(number));
    CHECK(memcmp(after.question, before->question, sizeof after.question) == 0);
    CHECK(reply(RAIMSKLO_DERIVATIVE, N).number == RAIMSKLO_REFUSED_UNASKED && unchanged(&after));
}

/* What the header says of refusals: nothing is changed, and another call can be made; but 11 and 12 end the run. */
static void what_refusals_leave(void) {
    raimsklo_options good = raimsklo_defaults(), o = good;
    raimsklo_answer a;
    lent before;
    memset(work, 7, sizeof work), memset(question, 7, sizeof question);
    memset(session, 7, sizeof session), memset(pivots, 7, sizeof pivots);
    before = lent_now();
    o.max_steps = 0;
    CHECK(start(N, 0, 0, 1, sizeof session, o).number == RAIMSKLO_REFUSED_NO_STEPS && unchanged(&before));
    CHECK(start(N, 0, 0, 3, sizeof session, good).number == RAIMSKLO_REFUSED_TOLERANCE_LENGTH && unchanged(&before));
    CHECK(start(0, 0, 0, 1, sizeof session, good).number == RAIMSKLO_SUCCESS && unchanged(&before));

    CHECK(start(N, 1, 1, 1, sizeof session, good).number == RAIMSKLO_WANTS_DERIVATIVE && !unchanged(&before));
    before = lent_now();
    CHECK(reply(RAIMSKLO_CONTINUE, N).number == RAIMSKLO_REFUSED_UNASKED && unchanged(&before));
    CHECK(reply(RAIMSKLO_DERIVATIVE, 1).number == RAIMSKLO_REFUSED_UNASKED && unchanged(&before));
    CHECK(reply(6, N).number == RAIMSKLO_REFUSED_UNASKED && unchanged(&before));
    CHECK(reply(RAIMSKLO_DERIVATIVE, N).number == RAIMSKLO_FIRST_REPORT && !unchanged(&before));

    CHECK(start(N, 1, 1, 1, sizeof session, good).number == RAIMSKLO_WANTS_DERIVATIVE);
    f[0] = f[1] = 1e308; /* so large that the step computed is 0 */
    before = lent_now(), a = reply(RAIMSKLO_DERIVATIVE, N);
    f[0] = f[1] = 0;
    CHECK(a.value == 0);
    ended_by(RAIMSKLO_REFUSED_FIRST_STEP, &a, &before);
    CHECK(start(N, 1, 0, N, sizeof session, good).number == RAIMSKLO_WANTS_DERIVATIVE);
    before = lent_now(), a = reply(RAIMSKLO_DERIVATIVE, N);
    CHECK(a.index == 1);
    ended_by(RAIMSKLO_REFUSED_WEIGHT, &a, &before);
}

int main(void) {
    version();
    texts();
    lengths();
    caps();
    refusals();
    what_refusals_leave();
    return passed("hosts/c/test_header");
}
