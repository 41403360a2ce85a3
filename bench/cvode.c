/* Requests and steps of CVODE (BDF, Newton, dense difference Jacobian, its defaults) on the problems of `bench counts`.
 * A line for each run: solver, problem, tolerance, derivatives, Jacobians, steps, rejected, and the end. */
#include <cvode/cvode.h>
#include <math.h>
#include <nvector/nvector_serial.h>
#include <stdio.h>
#include <stdlib.h>
#include <sunlinsol/sunlinsol_dense.h>
#include <sunmatrix/sunmatrix_dense.h>

#define LINKS 12

static int tail(realtype t, N_Vector state, N_Vector out, void *unused) {
    double *y = N_VGetArrayPointer(state), *f = N_VGetArrayPointer(out), *speed = y + LINKS;
    (void)unused;
    for (int i = 0; i < LINKS; i++) {
        double above = i == 0 ? 0.6 * sin(2.0 * t) : y[i - 1], stiff = 900.0 * pow(0.8, i), mass = pow(0.9, i);
        double pull = stiff * (above - y[i]);
        if (i + 1 < LINKS) pull -= 0.8 * stiff * (y[i] - y[i + 1]);
        f[i] = speed[i];
        f[LINKS + i] = (pull - 6.0 * speed[i]) / mass - 9.81 * sin(y[i]);
    }
    return 0;
}

static int vdp(realtype t, N_Vector state, N_Vector out, void *unused) {
    double *y = N_VGetArrayPointer(state), *f = N_VGetArrayPointer(out);
    (void)t, (void)unused;
    f[0] = y[1];
    f[1] = 1000.0 * ((1.0 - y[0] * y[0]) * y[1] - y[0]);
    return 0;
}

static int robertson(realtype t, N_Vector state, N_Vector out, void *unused) {
    double *y = N_VGetArrayPointer(state), *f = N_VGetArrayPointer(out);
    double a = 0.04 * y[0], b = 1e4 * y[1] * y[2], c = 3e7 * y[1] * y[1];
    (void)t, (void)unused;
    f[0] = b - a;
    f[1] = a - b - c;
    f[2] = c;
    return 0;
}

static void must(int good, const char *what) {
    if (!good) {
        fprintf(stderr, "cvode: %s failed\n", what);
        exit(1);
    }
}

static void run(const char *name, CVRhsFn f, int n, const double *y0, double end, const double *atol, double rtol) {
    SUNContext context;
    must(SUNContext_Create(NULL, &context) == 0, "context");
    N_Vector y = N_VNew_Serial(n, context), tolerance = N_VNew_Serial(n, context);
    for (int i = 0; i < n; i++) {
        N_VGetArrayPointer(y)[i] = y0[i];
        N_VGetArrayPointer(tolerance)[i] = atol[i] * rtol;
    }
    void *solver = CVodeCreate(CV_BDF, context);
    must(CVodeInit(solver, f, 0.0, y) == 0, "init");
    must(CVodeSVtolerances(solver, rtol, tolerance) == 0, "tolerances");
    SUNMatrix matrix = SUNDenseMatrix(n, n, context);
    SUNLinearSolver linear = SUNLinSol_Dense(y, matrix, context);
    must(CVodeSetLinearSolver(solver, linear, matrix) == 0, "linear solver");
    must(CVodeSetMaxNumSteps(solver, 1000000) == 0, "steps");
    must(CVodeSetStopTime(solver, end) == 0, "stop");
    realtype t = 0.0;
    must(CVode(solver, end, y, &t, CV_NORMAL) >= 0, "run");
    long nfe, columns, nje, steps, errors, convergence;
    CVodeGetNumRhsEvals(solver, &nfe);
    CVodeGetNumLinRhsEvals(solver, &columns);
    CVodeGetNumJacEvals(solver, &nje);
    CVodeGetNumSteps(solver, &steps);
    CVodeGetNumErrTestFails(solver, &errors);
    CVodeGetNumNonlinSolvConvFails(solver, &convergence);
    printf("cvode %s %.0e %ld %ld %ld %ld", name, rtol, nfe + columns, nje, steps, errors + convergence);
    for (int i = 0; i < n; i++) printf(" %.17g", N_VGetArrayPointer(y)[i]);
    printf("\n");
    CVodeFree(&solver);
    SUNLinSolFree(linear);
    SUNMatDestroy(matrix);
    N_VDestroy(y);
    N_VDestroy(tolerance);
    SUNContext_Free(&context);
}

int main(void) {
    double still[2 * LINKS] = {0}, even[2 * LINKS], circle[2] = {2.0, 0.0}, first[3] = {1.0, 0.0, 0.0};
    double apart[3] = {1e-2, 1e-6, 1e-2}, tolerances[3] = {1e-4, 1e-6, 1e-8};
    for (int i = 0; i < 2 * LINKS; i++) even[i] = 1e-3;
    for (int k = 0; k < 3; k++) run("tail", tail, 2 * LINKS, still, 4.0, even, tolerances[k]);
    for (int k = 0; k < 3; k++) run("vdp", vdp, 2, circle, 2.0, even, tolerances[k]);
    for (int k = 0; k < 3; k++) run("robertson", robertson, 3, first, 4e4, apart, tolerances[k]);
    return 0;
}
