//! The two functions that the scope writes anew, the logarithm and the exponential, and `max` and `min`.

fn chain(k: u32, q: f64) -> f64 {
    if k == 35 {
        1.0 / 35.0
    } else {
        1.0 / f64::from(k) + q * chain(k + 2, q)
    }
}

pub fn ln(v: f64) -> f64 {
    let (mut m, mut e) = (v, 0i32);
    while m >= 2.0 {
        m /= 2.0;
        e += 1;
    }
    while m < 1.0 {
        m *= 2.0;
        e -= 1;
    }
    let s = (m - 1.0) / (m + 1.0);
    f64::from(e) * f64::from_bits(0x3FE62E42FEFA39EF) + (2.0 * s) * chain(1, s * s)
}

pub fn ln_f32(v: f32) -> f32 {
    ln(f64::from(v)) as f32
}

pub fn exp_f32(a: f32) -> f32 {
    if a < -104.0 {
        return 0.0;
    }
    let y = f64::from(a) / 128.0;
    fn horner(k: u32, y: f64) -> f64 {
        if k == 17 {
            1.0
        } else {
            1.0 + (y / f64::from(k)) * horner(k + 1, y)
        }
    }
    let h1 = horner(1, y);
    let h2 = h1 * h1;
    let h4 = h2 * h2;
    let h8 = h4 * h4;
    let h16 = h8 * h8;
    let h32 = h16 * h16;
    let h64 = h32 * h32;
    (h64 * h64) as f32
}

/// `max` and `min` pass over a NaN.
pub(super) fn max32(a: f32, b: f32) -> f32 {
    if a.is_nan() {
        b
    } else if b.is_nan() || a >= b {
        a
    } else {
        b
    }
}
pub(super) fn max64(a: f64, b: f64) -> f64 {
    if a.is_nan() {
        b
    } else if b.is_nan() || a >= b {
        a
    } else {
        b
    }
}
pub(super) fn min64(a: f64, b: f64) -> f64 {
    if a.is_nan() {
        b
    } else if b.is_nan() || a <= b {
        a
    } else {
        b
    }
}
