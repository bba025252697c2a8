//! The scope's exponential and logarithm, for the original Rust (the machine has its own).
use std::cmp::Ordering;

pub const LN2: f64 = f64::from_bits(0x3FE6_2E42_FEFA_39EF);

pub fn ln64(v: f64) -> f64 {
    if !(v > 0.0 && v.is_finite()) {
        return v.ln(); // outside the scope's definition; only on models that load refuses
    }
    let bits = v.to_bits();
    let mut e = ((bits >> 52) & 0x7ff) as i64 - 1023;
    let mut frac = bits & ((1u64 << 52) - 1);
    if e == -1023 {
        // subnormal (never reached by the branch: every argument is a widened f32 or 2*PI)
        e = -1022;
        while frac >> 52 == 0 {
            frac <<= 1;
            e -= 1;
        }
        frac &= (1u64 << 52) - 1;
    }
    let m = f64::from_bits((1023u64 << 52) | frac);
    let s = (m - 1.0) / (m + 1.0);
    let q = s * s;
    let mut h = 1.0 / 35.0;
    let mut k = 33;
    while k >= 1 {
        h = 1.0 / k as f64 + q * h;
        k -= 2;
    }
    e as f64 * LN2 + (2.0 * s) * h
}

pub fn ln32(v: f32) -> f32 {
    ln64(v as f64) as f32
}

pub fn exp32(x: f32) -> f32 {
    if x < -104.0 {
        return 0.0;
    }
    let y = x as f64 / 128.0;
    let mut h = 1.0f64;
    for k in (1..=16).rev() {
        h = 1.0 + (y / k as f64) * h;
    }
    for _ in 0..7 {
        h = h * h;
    }
    h as f32
}

pub fn nan_last(a: &(usize, f32), b: &(usize, f32)) -> Ordering {
    match (a.1.is_nan(), b.1.is_nan()) {
        (true, true) => a.0.cmp(&b.0),
        (true, false) => Ordering::Greater,
        (false, true) => Ordering::Less,
        _ => b.1.partial_cmp(&a.1).unwrap().then(a.0.cmp(&b.0)),
    }
}
