/* A pendulum for small angles, y'' = -y, from 0 to 10; prints the pose at each accepted step, with the digits that
 * its error allows. The question loop, with nothing but the proved library.
 *     bash tools/library raimsklo
 *     cc -Iinclude examples/c/oscillator.c target/staticlib/libraimsklo.a -o target/oscillator
 *     target/oscillator */
#include <stdio.h>
#include "raimsklo.h"

enum { N = 2, WORK = RAIMSKLO_WORK_LENGTH(N), QUESTION = RAIMSKLO_QUESTION_LENGTH(N) };

int main(void) {
    double work[WORK], question[QUESTION], f[N], y0[N] = {1, 0}, rtol = 1e-6, atol = 1e-9;
    size_t pivots[RAIMSKLO_PIVOTS_LENGTH(N)];
    uint8_t session[RAIMSKLO_SESSION_LENGTH];
    raimsklo_answer a = raimsklo_start(0, 10, y0, N, &rtol, 1, &atol, 1, raimsklo_defaults(), work, WORK, pivots, N,
                                       session, sizeof session, question, QUESTION);
    while (raimsklo_is_question(a.number)) {
        size_t kind = RAIMSKLO_CONTINUE;
        f[0] = question[0], f[1] = question[1];
        if (a.number == RAIMSKLO_WANTS_DERIVATIVE) kind = RAIMSKLO_DERIVATIVE, f[0] = question[1], f[1] = -question[0];
        if (a.number == RAIMSKLO_REPORT) printf("%8.4f  % .3f  % .3f\n", a.time, question[0], question[1]);
        a = raimsklo_reply(kind, f, N, a.time, work, WORK, pivots, N, session, sizeof session, question, QUESTION);
    }
    printf("%s: %zu steps accepted, %zu derivatives\n", raimsklo_message(a.number), a.accepted, a.nfe);
    if (a.number == RAIMSKLO_SUCCESS) return 0;
    fprintf(stderr, "ended with %zu: %s\n", a.number, raimsklo_advice(a.number));
    return 1;
}
