//! Our own functions, as a host calls them: `raimsklo_` those of the product, `probe_` those for comparisons only.
//! A slice is lent as a pointer and a length; the safe functions below take slices.

unsafe extern "C" {
    pub safe fn raimsklo_root(x: f64, k: usize) -> f64;
    pub safe fn probe_abs(x: f64) -> f64;
    pub safe fn probe_max(a: f64, b: f64) -> f64;
    pub safe fn probe_min(a: f64, b: f64) -> f64;
    pub safe fn probe_clamp(x: f64, low: f64, high: f64) -> f64;
    pub safe fn probe_signum(x: f64) -> f64;
    pub safe fn probe_copysign(x: f64, s: f64) -> f64;
    pub safe fn probe_is_refused(h: f64, direction: f64) -> bool;
    pub safe fn probe_to_bits(x: f64) -> u64;
    pub safe fn probe_from_bits(b: u64) -> f64;
    pub safe fn probe_sqrt(x: f64) -> f64;
    pub safe fn probe_elco(table: usize, order: usize, i: usize) -> f64;
    pub safe fn probe_tesco(table: usize, order: usize, i: usize) -> f64;
    pub safe fn probe_cm1(table: usize, order: usize) -> f64;
    pub safe fn probe_cm2(table: usize, order: usize) -> f64;
    pub safe fn probe_sm1(order: usize) -> f64;
}

/// Declares functions that are lent slices, and for each a safe function of the same name without `probe_`.
/// `&` is a shared slice, `&mut` one that is written, and anything else is passed as it is.
macro_rules! lent {
    ($($probe:ident = $name:ident($($argument:ident: $kind:tt),*) -> $result:ty;)*) => {
        $(
            #[allow(clippy::too_many_arguments)]
            pub fn $name($($argument: lent!(@safe $kind)),*) -> $result {
                lent!(@call $probe, [$($argument: $kind),*], [], [], $result)
            }
        )*
    };
    (@safe floats) => { &[f64] };
    (@safe floats_out) => { &mut [f64] };
    (@safe counts) => { &[usize] };
    (@safe counts_out) => { &mut [usize] };
    (@safe $other:tt) => { $other };
    (@call $probe:ident, [], [$($kinds:ty),*], [$($values:expr),*], $result:ty) => {{
        unsafe extern "C" {
            fn $probe($(_: $kinds),*) -> $result;
        }
        // Sound: each pointer is lent with the length of the slice it comes from.
        unsafe { $probe($($values),*) }
    }};
    (@call $p:ident, [$a:ident: floats $(, $($rest:tt)*)?], [$($k:ty),*], [$($v:expr),*], $r:ty) => {
        lent!(@call $p, [$($($rest)*)?], [$($k,)* *const f64, usize], [$($v,)* $a.as_ptr(), $a.len()], $r)
    };
    (@call $p:ident, [$a:ident: floats_out $(, $($rest:tt)*)?], [$($k:ty),*], [$($v:expr),*], $r:ty) => {
        lent!(@call $p, [$($($rest)*)?], [$($k,)* *mut f64, usize], [$($v,)* $a.as_mut_ptr(), $a.len()], $r)
    };
    (@call $p:ident, [$a:ident: counts $(, $($rest:tt)*)?], [$($k:ty),*], [$($v:expr),*], $r:ty) => {
        lent!(@call $p, [$($($rest)*)?], [$($k,)* *const usize, usize], [$($v,)* $a.as_ptr(), $a.len()], $r)
    };
    (@call $p:ident, [$a:ident: counts_out $(, $($rest:tt)*)?], [$($k:ty),*], [$($v:expr),*], $r:ty) => {
        lent!(@call $p, [$($($rest)*)?], [$($k,)* *mut usize, usize], [$($v,)* $a.as_mut_ptr(), $a.len()], $r)
    };
    (@call $p:ident, [$a:ident: $kind:tt $(, $($rest:tt)*)?], [$($k:ty),*], [$($v:expr),*], $r:ty) => {
        lent!(@call $p, [$($($rest)*)?], [$($k,)* $kind], [$($v,)* $a], $r)
    };
}

lent! {
    probe_vmnorm = vmnorm(v: floats, w: floats) -> f64;
    probe_fnorm_dense = fnorm_dense(n: usize, a: floats, w: floats) -> f64;
    probe_ewset = ewset(rtol: floats, atol: floats, work: floats_out, n: usize, at: usize) -> usize;
    probe_ewset_scalar_like = ewset_scalar_like(work: floats_out, n: usize, at: usize) -> usize;
    probe_invert_weights = invert_weights(ewt: floats_out) -> usize;
    probe_initial_step_size = initial_step_size(
        t: f64, tout: f64, y: floats, f0: floats, w: floats, rtol: floats, atol: floats
    ) -> f64;
    probe_dense_lu_factor = dense_lu_factor(a: floats_out, n: usize, ipiv: counts_out) -> usize;
    probe_dense_lu_solve = dense_lu_solve(work: floats_out, n: usize, a: usize, ipiv: counts, b: usize) -> usize;
    probe_predict_columns = predict_columns(yh: floats_out, n: usize, nq: usize, nqnyh: usize) -> usize;
    probe_retract_columns = retract_columns(yh: floats_out, n: usize, nq: usize, nqnyh: usize) -> usize;
    probe_correct_columns = correct_columns(floats: floats, counts: counts, work: floats_out) -> usize;
    probe_stoda_adjust_step_size = stoda_adjust_step_size(
        floats: floats_out, counts: counts_out, rh: f64, work: floats_out
    ) -> usize;
    probe_stoda_get_predicted_values = stoda_get_predicted_values(
        floats: floats_out, counts: counts_out, work: floats_out
    ) -> usize;
    probe_stoda_first_call_init = stoda_first_call_init(floats: floats_out, counts: counts_out) -> usize;
    probe_stoda_reset = stoda_reset(floats: floats_out, counts: counts_out) -> usize;
    probe_snapshot_step = snapshot_step(
        floats: floats, counts: counts, work: floats, question: floats_out
    ) -> usize;
    probe_interpolate = interpolate(xi: f64, yi: floats_out, cont: floats) -> usize;
}
