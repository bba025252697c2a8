//! Request No. 7: the nearest of the enrolled voices, on the library and on the reference.
use crate::gen::Rng;
use crate::rattle::nearest_voice;
use crate::voice::{distance, nearest, Nearest};
use std::collections::BTreeMap;
use std::io::BufRead;

fn element(r: &mut Rng, style: u64) -> f32 {
    match style {
        0 => (r.n(33) as f32 - 16.0) / 8.0,
        1 => (r.n(2001) as f32 - 1000.0) / 7.0,
        2 => (r.n(2001) as f32 - 1000.0) * 3e16,
        3 => (r.n(2001) as f32 - 1000.0) * 3e-26,
        4 => (r.n(3) as f32 - 1.0) * f32::MAX,
        _ => loop {
            let x = f32::from_bits(r.n(1 << 32) as u32);
            if x.is_finite() {
                break x;
            }
        },
    }
}

/// Dimension, vector, enrolled vectors and limit, with the edges of every refusal, ties, and limits next to a distance.
fn case(r: &mut Rng) -> (usize, Vec<f32>, Vec<Vec<f32>>, f32) {
    let dim = if r.n(40) == 0 { r.r(1, 128) } else { r.r(1, 6) } as usize;
    let n = if r.n(30) == 0 { r.pick(&[0, 31, 32, 33, 34]) } else { r.r(1, 6) };
    let style = r.n(6);
    let of = |r: &mut Rng, n: usize| (0..n).map(|_| element(r, style)).collect::<Vec<f32>>();
    let mut vector = of(r, dim);
    let mut enrolled: Vec<Vec<f32>> = (0..n).map(|_| of(r, dim)).collect();
    if r.n(4) == 0 && n > 1 {
        let (a, b) = (r.n(n) as usize, r.n(n) as usize);
        enrolled[a] = enrolled[b].clone();
    }
    if r.n(6) == 0 && n > 0 {
        vector = enrolled[r.n(n) as usize].clone();
    }
    let mut limit = match r.n(6) {
        0 => f32::MAX,
        1 => r.pick(&[0.0, -0.0]),
        2 => element(r, style).abs(),
        _ if n > 0 => {
            let d = distance(&vector, &enrolled[r.n(n) as usize]);
            let d = if d.is_finite() { d } else { f32::MAX };
            f32::from_bits((u64::from(d.to_bits()) + r.n(3)).saturating_sub(1).min(0x7f7f_ffff) as u32)
        }
        _ => 1.0,
    };
    let odd = [f32::NAN, f32::INFINITY, f32::NEG_INFINITY];
    if r.n(25) == 0 {
        let i = r.n(dim as u64) as usize;
        vector[i] = r.pick(&odd);
    }
    if r.n(25) == 0 && n > 0 {
        let (i, k) = (r.n(n) as usize, r.n(dim as u64) as usize);
        enrolled[i][k] = r.pick(&odd);
    }
    if r.n(25) == 0 {
        limit = r.pick(&[f32::NAN, f32::INFINITY, -1.0, -f32::from_bits(1), -f32::MAX]);
    }
    if r.n(25) == 0 {
        vector.push(0.0);
    }
    if r.n(25) == 0 && n > 0 {
        let i = r.n(n) as usize;
        enrolled[i].pop();
    }
    (dim, vector, enrolled, limit)
}

fn bits(v: &[f32]) -> Vec<u32> {
    v.iter().map(|x| x.to_bits()).collect()
}

/// The library's answer: the enrolled vectors go in one after the other.
fn library(dim: usize, vector: &[f32], enrolled: &[Vec<f32>], limit: f32) -> Nearest {
    nearest_voice(dim, &bits(vector), enrolled.len(), &bits(&enrolled.concat()), limit)
}

/// What a case shows: its kind of answer, and of one that is not refused a tie, a limit that is met exactly, a distance that overflows.
fn shows(want: Nearest, vector: &[f32], enrolled: &[Vec<f32>], limit: f32) -> Vec<String> {
    let kind = match want {
        Nearest::Voice(..) => "voice".to_string(),
        Nearest::Nobody => "nobody".to_string(),
        Nearest::Refused(n) => return vec![n.to_string()],
    };
    let all: Vec<f32> = enrolled.iter().map(|e| distance(vector, e)).collect();
    let least = all.iter().copied().fold(f32::INFINITY, f32::min);
    let seen = [
        ("tie", least.is_finite() && all.iter().filter(|&&d| d == least).count() > 1),
        ("limit met", least == limit),
        ("overflow", all.iter().any(|d| d.is_infinite())),
        ("all overflow", least.is_infinite()),
    ];
    std::iter::once(kind).chain(seen.iter().filter(|x| x.1).map(|x| x.0.to_string())).collect()
}

/// Runs cases; prints how many show what, and returns the number of differences.
pub fn run(first: u64, count: u64) -> u64 {
    let mut r = Rng::new(first);
    let (mut shown, mut wrong) = (BTreeMap::new(), 0);
    for _ in 0..count {
        let (dim, vector, enrolled, limit) = case(&mut r);
        let want = nearest(dim, &vector, &enrolled, limit);
        let got = library(dim, &vector, &enrolled, limit);
        for x in shows(want, &vector, &enrolled, limit) {
            *shown.entry(x).or_insert(0u64) += 1;
        }
        if got != want {
            wrong += 1;
            if wrong <= 5 {
                println!("{dim} {vector:?} {enrolled:?} {limit}: {got:?}, not {want:?}");
            }
        }
    }
    println!("nearest voice: {count} cases, {shown:?}, {wrong} differences");
    wrong
}

/// A line `nearest DIM VECTOR N V1 .. VN LIMIT = ANSWER`; none where the line is of another kind.
fn parsed(line: &str) -> Option<(usize, Vec<f32>, Vec<Vec<f32>>, f32, Nearest)> {
    fn number(w: &mut std::str::SplitWhitespace) -> usize {
        w.next().unwrap().parse().unwrap()
    }
    fn float(w: &mut std::str::SplitWhitespace) -> f32 {
        f32::from_bits(u32::from_str_radix(w.next().unwrap(), 16).unwrap())
    }
    fn list(w: &mut std::str::SplitWhitespace) -> Vec<f32> {
        (0..number(w)).map(|_| float(w)).collect()
    }
    let w = &mut line.split_whitespace();
    if w.next() != Some("nearest") {
        return None;
    }
    let (dim, vector) = (number(w), list(w));
    let enrolled = (0..number(w)).map(|_| list(w)).collect();
    let limit = float(w);
    assert_eq!(w.next(), Some("="));
    let answer = match (number(w), w.next()) {
        (0, Some("nobody")) => Nearest::Nobody,
        (0, Some(index)) => Nearest::Voice(index.parse().unwrap(), float(w).to_bits()),
        (n, _) => Nearest::Refused(n),
    };
    Some((dim, vector, enrolled, limit, answer))
}

/// Runs cases that bring their answers, on the library and on the reference; returns the number of differences.
pub fn lines(input: impl BufRead) -> u64 {
    let (mut shown, mut wrong, mut count, mut skipped) = (BTreeMap::new(), 0, 0, 0);
    for line in input.lines() {
        let line = line.unwrap();
        let Some((dim, vector, enrolled, limit, want)) = parsed(&line) else {
            skipped += 1;
            continue;
        };
        count += 1;
        for x in shows(want, &vector, &enrolled, limit) {
            *shown.entry(x).or_insert(0u64) += 1;
        }
        let got = [library(dim, &vector, &enrolled, limit), nearest(dim, &vector, &enrolled, limit)];
        if got != [want; 2] {
            wrong += 1;
            println!("{line}: {got:?}");
        }
    }
    println!("nearest voice: {count} lines, {skipped} of another kind, {shown:?}, {wrong} differences");
    wrong
}
