//! What our numbers are compared with where the published source has no function of that name, or takes what ours
//! refuses: the rules of the root and of the refusals of an interpolation, written down once more.

/// k factors y, multiplied from the left, each product rounded.
pub fn product(y: f64, k: usize) -> f64 {
    (1..k).fold(y, |p, _| p * y)
}

/// The root by its rule: bits 62 down to 0, each kept if the k-fold product is at most x.
pub fn root(x: f64, k: usize) -> f64 {
    if x.is_nan() || x < 0.0 {
        return f64::NAN;
    }
    if x == 0.0 {
        return 0.0;
    }
    if x == f64::INFINITY {
        return x;
    }
    let mut kept = 0u64;
    for bit in (0..=62).rev() {
        let tried = kept | 1 << bit;
        if product(f64::from_bits(tried), k) <= x {
            kept = tried;
        }
    }
    f64::from_bits(kept)
}

/// For x above 0 and finite: y is the largest float whose product is at most x.
pub fn is_largest(x: f64, k: usize, y: f64) -> bool {
    product(y, k) <= x && x < product(y.next_up(), k)
}

/// The number of an interpolation: 0 for a copy or a value, otherwise the first refusal that applies.
pub fn interpolation(cont: &[f64], output: usize) -> usize {
    if cont.len() == output {
        return 0;
    }
    let whole = |x: f64, limit: f64| (0.0..=limit).contains(&x) && x.fract() == 0.0;
    if cont.len() < 6 || !whole(cont[0], 64.0) || !whole(cont[1], 12.0) {
        return 15;
    }
    let (n, nq) = (cont[0] as usize, cont[1] as usize);
    if output != n {
        return 16;
    }
    if cont.len() - 6 < (nq + 1) * n || cont[3] == 0.0 {
        return 17;
    }
    0
}
