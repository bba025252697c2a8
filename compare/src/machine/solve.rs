//! Packed lower triangles, and the solve: conjugate gradients, and Cholesky where their residual grew.
use super::ev;

/// Place of (i, j), i ≥ j, in a packed lower triangle.
pub(super) fn tri(i: usize, j: usize) -> usize {
    let (a, b) = if i < j { (j, i) } else { (i, j) };
    (0..=a).sum::<usize>() + b
}

fn mat_vec(a: &[f64], n: usize, x: &[f64]) -> Vec<f64> {
    (0..n)
        .map(|i| {
            let mut s = 0.0;
            for j in 0..n {
                s += a[tri(i, j)] * x[j];
            }
            s
        })
        .collect()
}

fn dot(a: &[f64], b: &[f64]) -> f64 {
    let mut s = -0.0;
    for i in 0..a.len() {
        s += a[i] * b[i];
    }
    s
}

pub fn cholesky(a: &[f64], n: usize, b: &[f64]) -> Option<Vec<f64>> {
    let mut l = vec![vec![0f64; n]; n];
    for i in 0..n {
        for j in 0..=i {
            let mut s = a[tri(i, j)];
            for k in 0..j {
                s -= l[i][k] * l[j][k];
            }
            if i == j {
                if s <= 0.0 {
                    return None;
                }
                l[i][i] = s.sqrt();
            } else {
                l[i][j] = s / l[j][j];
            }
        }
    }
    let mut y = vec![0f64; n];
    for i in 0..n {
        let mut s = b[i];
        for k in 0..i {
            s -= l[i][k] * y[k];
        }
        y[i] = s / l[i][i];
    }
    let mut x = vec![0f64; n];
    for i in (0..n).rev() {
        let mut s = y[i];
        for k in i + 1..n {
            s -= l[k][i] * x[k];
        }
        x[i] = s / l[i][i];
    }
    Some(x)
}

pub fn cgd(a: &[f64], n: usize, b: &[f64], start: &[f64], iters: u64) -> Vec<f64> {
    let mut x = start.to_vec();
    let ap = mat_vec(a, n, &x);
    let mut p: Vec<f64> = (0..n).map(|i| b[i] - ap[i]).collect();
    let mut r: Vec<f64> = p.iter().map(|v| -v).collect();
    let mut cur = dot(&r, &r);
    let first = cur;
    let mut mark = cur;
    // request 9: a start on the solution is kept; a NaN is not at most anything
    if cur <= f64::MIN_POSITIVE {
        ev(if cur == 0.0 { "cgd: exact start kept, square 0" } else { "cgd: exact start kept, square above 0" });
        return x;
    }
    let small = 0.01f64 * 0.01;
    let large = 1.0 / small;
    let mut k = 0u64;
    while k < n as u64 + 5 && k != iters {
        let ap = mat_vec(a, n, &p);
        let alpha = -dot(&p, &r) / dot(&p, &ap);
        for i in 0..n {
            x[i] += alpha * p[i];
            r[i] += alpha * ap[i];
        }
        let mut nextr = dot(&r, &r);
        if nextr < small * mark || nextr > large * mark {
            ev("cgd: residual recomputed");
            r = mat_vec(a, n, &x);
            for i in 0..n {
                r[i] -= b[i];
            }
            nextr = dot(&r, &r);
            mark = nextr;
        }
        k += 1;
        if nextr <= f64::MIN_POSITIVE {
            ev("cgd: stopped by residual");
            cur = nextr;
            break;
        }
        let beta = nextr / cur;
        for i in 0..n {
            p[i] = beta * p[i] - r[i];
        }
        cur = nextr;
    }
    if cur > first && cur > first + 1.0e-10 * dot(b, b) {
        match cholesky(a, n, b) {
            Some(v) => {
                ev("cgd: cholesky solved");
                x = v;
            }
            None => {
                ev("cgd: cholesky left, start kept");
                x = start.to_vec();
            }
        }
    }
    x
}
