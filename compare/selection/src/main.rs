//! selection [ROUNDS]                                  the library's `select_posteriors` and the original's on the same rows of
//!                                                     log-likelihoods, in turn, in one process: the time of a call on each side, and their
//!                                                     ratio with its spread over the rounds (9; at least 5). First both are compared.
//! selection equal [ROWS]                              the answers alone: ROWS rows of every kind (20,000), and those that are timed
//! selection once CASE GAUSSIANS NUM_GSELECT SIDE      each row of a case once on one side, for callgrind: --toggle-collect=measured
//! CASE: few some all zero rising. SIDE: library original. Both have the scope's exponential and logarithm (../build.rs).
#[path = "../../src/fns.rs"]
mod fns;
#[allow(dead_code, warnings)]
mod orig {
    include!(concat!(env!("OUT_DIR"), "/orig.rs"));
}
#[allow(dead_code, warnings)]
mod orig_nan {
    include!(concat!(env!("OUT_DIR"), "/orig_nan.rs"));
}
use std::hint::black_box;

extern "C" {
    fn select(
        loglikes: *const f32,
        len: usize,
        num_gselect: usize,
        min_post: f32,
        chosen: *mut usize,
        chosen_len: usize,
        posts: *mut f32,
        posts_len: usize,
    ) -> usize;
}

/// The rooms that a caller lends, kept from call to call.
struct Rooms {
    chosen: Vec<usize>,
    posts: Vec<f32>,
}

impl Rooms {
    fn new(n: usize) -> Rooms {
        Rooms { chosen: vec![0; n], posts: vec![0.0; n] }
    }
    fn select(&mut self, row: &[f32], num: usize, min_post: f32) -> usize {
        assert!(num <= self.chosen.len() && num <= self.posts.len());
        unsafe {
            select(row.as_ptr(), row.len(), num, min_post, self.chosen.as_mut_ptr(), self.chosen.len(), self.posts.as_mut_ptr(), self.posts.len())
        }
    }
}

struct Rng(u64);

impl Rng {
    fn next(&mut self) -> u64 {
        self.0 ^= self.0 << 13;
        self.0 ^= self.0 >> 7;
        self.0 ^= self.0 << 17;
        self.0
    }
    fn below(&mut self, n: usize) -> usize {
        (self.next() >> 11) as usize % n
    }
    /// From 0 to 1.
    fn unit(&mut self) -> f64 {
        (self.next() >> 11) as f64 / (1u64 << 53) as f64
    }
    /// About normal, of variance one.
    fn normal(&mut self) -> f64 {
        (0..12).map(|_| self.unit()).sum::<f64>() - 6.0
    }
}

const ROWS: usize = 64;
const CASES: [&str; 5] = ["few", "some", "all", "zero", "rising"];

/// The prune floor of a case, and its rows: log-likelihoods that lie wide apart, so that few are within ln(0.025) = -3.7 of the largest
/// (few, and zero, where there is no cutoff); about an eighth of them within it (some); all within it, in no order (all) or the
/// larger the later (rising).
fn rows(case: &str, n: usize) -> (f32, Vec<Vec<f32>>) {
    let mut r = Rng(0x9e37_79b9_7f4a_7c15 ^ n as u64);
    let rows = (0..ROWS)
        .map(|_| {
            let mut row: Vec<f32> = (0..n)
                .map(|_| match case {
                    "few" | "zero" => -60.0 + 15.0 * r.normal(),
                    "some" => -28.0 * r.unit(),
                    _ => -3.5 * r.unit(),
                } as f32)
                .collect();
            if case == "rising" {
                row.sort_by(f32::total_cmp);
            }
            row
        })
        .collect();
    (if case == "zero" { 0.0 } else { 0.025 }, rows)
}

/// What is timed, under a name that callgrind finds: the thread's own time, so that other work on the machine does not count.
#[no_mangle]
#[inline(never)]
pub fn measured(f: &mut dyn FnMut()) -> u64 {
    let t = thread_time();
    f();
    thread_time() - t
}

/// Nanoseconds of this thread on the processor.
fn thread_time() -> u64 {
    #[repr(C)]
    struct Timespec {
        sec: i64,
        nsec: i64,
    }
    extern "C" {
        fn clock_gettime(clock: i32, t: *mut Timespec) -> i32;
    }
    const CLOCK_THREAD_CPUTIME_ID: i32 = 3;
    let mut t = Timespec { sec: 0, nsec: 0 };
    assert!(unsafe { clock_gettime(CLOCK_THREAD_CPUTIME_ID, &mut t) } == 0);
    t.sec as u64 * 1_000_000_000 + t.nsec as u64
}

/// Every row `times` times on a side: nanoseconds in all.
fn pass(library: bool, rooms: &mut Rooms, rows: &[Vec<f32>], num: usize, min_post: f32, times: usize) -> u64 {
    measured(&mut || {
        for _ in 0..times {
            for row in rows {
                if library {
                    black_box(rooms.select(black_box(row), num, min_post));
                } else {
                    black_box(orig::ivector::select_posteriors(black_box(row), num, min_post));
                }
            }
        }
    })
}

/// A NaN is one.
fn bits(x: f32) -> u32 {
    if x.is_nan() {
        f32::NAN.to_bits()
    } else {
        x.to_bits()
    }
}

fn same(rooms: &mut Rooms, row: &[f32], num: usize, min_post: f32) -> bool {
    let n = rooms.select(row, num, min_post);
    let ours: Vec<(usize, u32)> = (0..n).map(|k| (rooms.chosen[k], bits(rooms.posts[k]))).collect();
    let theirs: Vec<(usize, u32)> = orig_nan::ivector::select_posteriors(row, num, min_post).iter().map(|p| (p.0, bits(p.1))).collect();
    if ours != theirs {
        println!("differ: num_gselect {num}, min_post {min_post:e}, {row:?}\n  {ours:x?}\n  {theirs:x?}");
    }
    ours == theirs
}

/// Rows with NaN, infinities, zeros of both signs and equal numbers, short ones too: how many were compared, and how many differ. The
/// original is the one with NaN ordered last. Floors are those for which document 01 defines the logarithm, and 0 of both signs.
fn compared(count: usize) -> (usize, usize) {
    let mut r = Rng(88_172_645_463_325_252);
    let mut rooms = Rooms::new(80);
    let mut differ = 0;
    for k in 0..count {
        let n = r.below(if k % 8 == 0 { 600 } else { 40 });
        let (kind, wide) = (r.below(8), [0.5, 4.0, 30.0, 200.0, 1e38][r.below(5)]);
        let row: Vec<f32> = (0..n)
            .map(|_| match (kind, r.below(10)) {
                (0, 0..=4) | (1, 0) => f32::NAN,
                (0..=2, 5) => f32::INFINITY,
                (0..=3, 6 | 7) => f32::NEG_INFINITY,
                (4, 0..=3) => [0.0, -0.0, f32::from_bits(1), -f32::from_bits(1)][r.below(4)],
                (5, _) => r.below(6) as f32 - 3.0,
                (6, 0..=8) => -0.0,
                (6, _) => 0.0,
                _ => (r.normal() * wide) as f32,
            })
            .collect();
        let min_post = [0.0, -0.0, 0.025, 0.99, 1.0, 1.5, 1e-30, 1e-44, 3e38][r.below(9)];
        let num = [0, 1, 2, 5, 32, 80][r.below(6)];
        differ += usize::from(!same(&mut rooms, &row, num, min_post));
    }
    (count, differ)
}

fn main() {
    let a: Vec<String> = std::env::args().collect();
    if a.get(1).map(|s| s.as_str()) == Some("once") {
        let (n, num) = (a[3].parse().expect("number"), a[4].parse().expect("number"));
        let (min_post, rows) = rows(&a[2], n);
        pass(a[5] == "library", &mut Rooms::new(num), &rows, num, min_post, 1);
        println!("{} of {n}, num_gselect {num}, {}: {ROWS} calls", a[2], a[5]);
        return;
    }
    if a.get(1).map(|s| s.as_str()) == Some("equal") {
        let (mut count, mut differ) = compared(a.get(2).map_or(20_000, |s| s.parse().expect("number")));
        for (case, n) in CASES.iter().flat_map(|case| [64, 512, 1024].map(|n| (case, n))) {
            let (min_post, rows) = rows(case, n);
            for num in [1, 5, 32] {
                differ += rows.iter().filter(|row| !same(&mut Rooms::new(num), row, num, min_post)).count();
                count += rows.len();
            }
        }
        println!("selection: {count} rows compared with the original's, {differ} differ");
        std::process::exit(i32::from(differ > 0));
    }
    let rounds = a.get(1).map_or(9, |s| s.parse().expect("number")).max(5);
    let (count, mut differ) = compared(200_000);
    println!("{count} rows compared, {differ} differ");
    println!(
        "{:6} {:>9} {:>11} {:>8} {:>6} {:>11} {:>11}   library/original over {rounds} rounds",
        "case", "gaussians", "num_gselect", "min_post", "pass", "library ns", "original ns"
    );
    for case in CASES {
        for n in [64, 512, 1024] {
            let (min_post, rows) = rows(case, n);
            let passing: usize = rows
                .iter()
                .map(|row| {
                    let cutoff = row.iter().cloned().fold(f32::NEG_INFINITY, f32::max) + fns::ln32(min_post.max(f32::MIN_POSITIVE));
                    row.iter().filter(|l| **l > cutoff).count()
                })
                .sum();
            for num in [1, 5, 32] {
                let mut rooms = Rooms::new(num);
                differ += rows.iter().filter(|row| !same(&mut rooms, row, num, min_post)).count();
                let times = (200_000 / (ROWS * n)).max(1);
                let (mut ratios, mut each) = (vec![], [vec![], vec![]]);
                // one round to warm up
                for k in 0..=rounds {
                    let mut d = [0.0; 2];
                    for side in if k % 2 == 0 { [0, 1] } else { [1, 0] } {
                        d[side] = pass(side == 0, &mut rooms, &rows, num, min_post, times) as f64 / (times * ROWS) as f64;
                    }
                    if k > 0 {
                        ratios.push(d[0] / d[1]);
                        each[0].push(d[0]);
                        each[1].push(d[1]);
                    }
                }
                let mid = |v: &mut Vec<f64>| {
                    v.sort_by(f64::total_cmp);
                    v[v.len() / 2]
                };
                let m = mid(&mut ratios);
                println!(
                    "{case:6} {n:9} {num:11} {min_post:8} {:6.1} {:11.0} {:11.0}   {m:6.2}  ({:.2} to {:.2})",
                    passing as f64 / ROWS as f64,
                    mid(&mut each[0]),
                    mid(&mut each[1]),
                    ratios[0],
                    ratios[ratios.len() - 1]
                );
            }
        }
    }
    if differ > 0 {
        println!("{differ} differ");
        std::process::exit(1);
    }
}
