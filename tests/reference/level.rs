//! The level logarithm.

/// lev(N) in steps; None where there is no level (the customer's scope, "The level logarithm").
pub fn lev(N: u128) -> Option<u64> {
    if N == 0 || N > 1 << 80 {
        return None;
    }
    let b = highest_one_bit(N);
    let mut m = (N << 31) >> b;
    let mut bits = 0;
    for _ in 0..12 {
        let t = m * m;
        if t >= 1 << 63 {
            bits = 2 * bits + 1;
            m = t >> 32;
        } else {
            bits *= 2;
            m = t >> 31;
        }
    }
    Some(4096 * b + bits)
}

/// lev, signed for differences (the customer's scope, "The level logarithm").
pub fn steps(N: u128) -> Option<i64> {
    lev(N).map(|level| level as i64)
}

/// The place of the highest one bit of an N above 0 (the customer's scope, "The level logarithm").
fn highest_one_bit(N: u128) -> u64 {
    let mut b = 0;
    while N >> (b + 1) != 0 {
        b += 1;
    }
    b
}
