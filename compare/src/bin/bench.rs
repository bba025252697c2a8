//! bench [ROUNDS]               the same calls on the library and on the original Rust, in turn, in one process: the time of a call on
//!                              each side, and their ratio with its spread over the rounds (7; at least 5)
//! bench once KIND SIDE SIZE    one round of one kind on one side, for callgrind: --toggle-collect=measured
//! KIND: load push finish change silence fetch weighted. SIDE: library original. SIZE: small large.
//! Both sides have the scope's exponential and logarithm (build.rs).
use compare::gen::Rng;
use compare::machine::{self, model_needs, stream_needs, Options, DEFAULT};
use compare::model::{self, Size};
use compare::original::plain;
use compare::rattle::{self, Call};
use compare::timed::{measured, median};
use std::hint::black_box;
use std::time::Duration;

const FRAMES: usize = 300;
const STEP: usize = 10;
const ROUNDS: usize = 7;

struct Set {
    size: Size,
    opts: Options,
    files: [Vec<u8>; 4],
    machine: machine::Model,
    lens: Vec<usize>,
    model: rattle::Model,
    frames: Vec<Vec<f32>>,
    delta: Vec<(usize, f32)>,
    /// How often a round does its calls: a small model's are short.
    times: usize,
}

fn us(v: &[u64]) -> Vec<usize> {
    v.iter().map(|x| *x as usize).collect()
}

fn set(size: Size, times: usize) -> Set {
    let mut r = Rng::new(2);
    let opts = DEFAULT;
    let files = model::files(&mut r, &opts, size);
    let m = machine::load(&opts, &files[0], &files[1], &files[2], &files[3], &[0; 8]).expect("the machine loads the model");
    let lens = us(&model_needs(&m.dims, &m.opts));
    let (n, loaded, wrong) = rattle::load(&opts, &files, &lens, rattle::load_scratch(size.feat, size.ivec), Some(&m));
    assert!(n == 0 && wrong.is_none(), "load: {n} {wrong:?}");
    let frames = (0..FRAMES).map(|_| model::frame(&mut r, &opts, size.base)).collect();
    let delta = (0..FRAMES).map(|t| (t, [1.0, 0.25, 1.0, 0.0][t % 4])).collect();
    Set { size, opts, files, machine: m, lens, model: loaded.unwrap(), frames, delta, times }
}

impl Set {
    fn ours(&self) -> rattle::Stream {
        let b = self.size.base;
        let mut l = vec![(FRAMES + 8) * b, (FRAMES + 8) * b, 1024, 1024];
        l.extend(us(&stream_needs(&self.machine.dims)));
        let (n, s, wrong) = rattle::Stream::fresh(&self.model, l[..].try_into().unwrap(), &[]);
        assert!(n == 0 && wrong.is_none());
        s.unwrap()
    }
    fn info(&self) -> plain::Info {
        plain::open(&self.opts, &self.files).unwrap().unwrap()
    }
    fn pushed<'a>(&self, info: &'a plain::Info) -> (rattle::Stream, plain::Stream<'a>) {
        let (mut s, mut p) = (self.ours(), plain::Stream::new(info));
        for x in &self.frames {
            let a = s.call(Call::Push(x));
            assert!(a.refusal == 0);
            p.push_frame(x);
        }
        (s, p)
    }
}

fn time(mut f: impl FnMut()) -> Duration {
    Duration::from_nanos(measured(&mut f))
}

const OURS: usize = 0;

/// One round of a kind on a side: the time of all its calls, and how many they are. What the calls work on is made before.
fn round(kind: &str, side: usize, z: &Set, info: &plain::Info) -> (Duration, usize) {
    let ours = side == OURS;
    match kind {
        "load" if ours => load(z),
        "load" => {
            let d = time(|| {
                for _ in 0..z.times {
                    black_box(plain::Info::open_bytes(plain::opts(&z.opts), &z.files[0], &z.files[1], &z.files[2], &z.files[3]).ok());
                }
            });
            (d, z.times)
        }
        "push" if ours => {
            let mut v: Vec<_> = (0..z.times).map(|_| z.ours()).collect();
            let d = time(|| {
                for s in &mut v {
                    for x in &z.frames {
                        black_box(s.push(x));
                    }
                }
            });
            assert!(v.iter().all(|s| s.rec.accepted == FRAMES));
            (d, z.times * FRAMES)
        }
        "push" => {
            let mut v: Vec<_> = (0..z.times).map(|_| plain::Stream::new(info)).collect();
            let d = time(|| {
                for p in &mut v {
                    for x in &z.frames {
                        p.push_frame(x);
                    }
                }
            });
            assert!(v.iter().all(|p| p.x_held().0 == FRAMES as u64));
            (d, z.times * FRAMES)
        }
        "finish" => {
            let mut v: Vec<_> = (0..z.times).map(|_| (z.ours(), plain::Stream::new(info))).collect();
            let d = time(|| {
                for (s, p) in &mut v {
                    for _ in 0..FRAMES {
                        if ours {
                            black_box(s.finish());
                        } else {
                            black_box(&mut *p).set_input_finished();
                        }
                    }
                }
            });
            assert!(v.iter().all(|(s, _)| s.rec.input_finished == ours));
            (d, z.times * FRAMES)
        }
        "change" => {
            let mut v: Vec<_> = (0..20).map(|_| z.pushed(info)).collect();
            let (fs, ws): (Vec<usize>, Vec<f32>) = z.delta.iter().copied().unzip();
            let d = time(|| {
                for (s, p) in &mut v {
                    if ours {
                        black_box(s.call(Call::Change(&fs, &ws)));
                    } else {
                        p.update_frame_weights(&z.delta);
                    }
                }
            });
            assert!(v.iter().all(|(s, p)| if ours { s.rec.waiting } else { p.x_waiting() } == FRAMES));
            (d, 20)
        }
        "silence" => {
            // utterances that grow by ten decoder frames at a time
            let (phones, steps) = ([1, 2, 3], 20);
            let seg: Vec<(i32, usize, usize)> = (0..10 * steps).map(|k| (k as i32 % 7, 3 * k, 3 * k + 3)).collect();
            let paths: Vec<_> = (1..=steps)
                .map(|k| {
                    let v: Vec<_> = seg.iter().take_while(|x| x.1 < 10 * k).collect();
                    let (ph, st, en): (Vec<i32>, Vec<usize>, Vec<usize>) =
                        (v.iter().map(|x| x.0).collect(), v.iter().map(|x| x.1).collect(), v.iter().map(|x| x.2).collect());
                    let as64 = |v: &[usize]| v.iter().map(|x| *x as u64).collect::<Vec<_>>();
                    let path = plain::path(&ph, &as64(&st), &as64(&en));
                    (ph, st, en, path)
                })
                .collect();
            let mut v: Vec<_> =
                (0..20).map(|_| (rattle::Silence::make(512, 0.01, 3, &phones).1.unwrap(), plain::Silence::new(&phones, 0.01, 3))).collect();
            let (mut fs, mut ws) = (vec![0usize; 2048], vec![0f32; 2048]);
            let d = time(|| {
                for (s, p) in &mut v {
                    for (k, (ph, st, en, path)) in (1..).zip(&paths) {
                        if ours {
                            black_box(s.plain_trace(10 * k, ph, st, en));
                            black_box(s.plain_weigh(30 * k, 0, &mut fs, &mut ws));
                        } else {
                            p.compute_current_traceback(path, 10 * k);
                            black_box(p.get_delta_weights(30 * k, 0));
                        }
                    }
                }
            });
            assert!(v.iter().all(|(s, p)| if ours { s.rec.length.number } else { p.x_table().len() } == 10 * steps));
            (d, 20 * 2 * steps)
        }
        "fetch" | "weighted" => {
            let (fs, ws): (Vec<usize>, Vec<f32>) = z.delta.iter().copied().unzip();
            let mut v: Vec<_> = (0..z.times).map(|_| z.pushed(info)).collect();
            if kind == "weighted" {
                for (s, p) in &mut v {
                    assert!(s.call(Call::Change(&fs, &ws)).refusal == 0);
                    p.update_frame_weights(&z.delta);
                }
            }
            let (mut bits, mut out) = (vec![0u32; z.size.ivec], vec![0f32; z.size.ivec]);
            let mut calls = 0;
            let d = time(|| {
                for (s, p) in &mut v {
                    for f in (STEP - 1..FRAMES - z.opts.right as usize).step_by(STEP) {
                        calls += 1;
                        if ours {
                            black_box(s.call(Call::Fetch(f, &mut bits)));
                        } else {
                            p.get_frame(f, &mut out);
                        }
                    }
                }
            });
            assert!(v.iter().all(|(s, p)| if ours { s.rec.num_frames_stats } else { p.x_next() } == calls / z.times * STEP));
            black_box((&bits, &out));
            (d, calls)
        }
        _ => panic!("no kind {kind}"),
    }
}

fn load(z: &Set) -> (Duration, usize) {
    let mut v: Vec<_> = (0..z.times).map(|_| rattle::Tables::new(&z.lens)).collect();
    let mut scratch = vec![0f64; rattle::load_scratch(z.size.feat, z.size.ivec)];
    let d = time(|| {
        for t in &mut v {
            black_box(rattle::load_into(&z.opts, &z.files, t, &mut scratch));
        }
    });
    assert!(v.iter().all(|t| t.same(&z.machine)));
    (d, z.times)
}
fn main() {
    let a: Vec<String> = std::env::args().collect();
    let kinds = ["load", "push", "finish", "change", "silence", "fetch", "weighted"];
    if a.get(1).map(|s| s.as_str()) == Some("once") {
        let size = if a[4] == "large" { model::LARGE } else { model::SMALL };
        let z = set(size, 1);
        let info = z.info();
        let (d, n) = round(&a[2], usize::from(a[3] != "library"), &z, &info);
        println!("{} {} {}: {n} calls, {:.1} µs", a[2], a[3], a[4], d.as_secs_f64() * 1e6);
        return;
    }
    let rounds = a.get(1).map_or(ROUNDS, |s| s.parse().expect("number")).max(5);
    println!("{:6} {:9} {:>14} {:>14}   library/original over {rounds} rounds", "size", "kind", "library µs", "original µs");
    for (name, size, times) in [("small", model::SMALL, 20), ("large", model::LARGE, 1)] {
        let z = set(size, times);
        let info = z.info();
        for kind in &kinds {
            let mut ratios = vec![];
            let mut each = [vec![], vec![]];
            // one round to warm up
            for k in 0..=rounds {
                let mut d = [0.0; 2];
                for side in if k % 2 == 0 { [0, 1] } else { [1, 0] } {
                    let (sum, n) = round(kind, side, &z, &info);
                    d[side] = sum.as_secs_f64() * 1e6 / n as f64;
                }
                if k > 0 {
                    ratios.push(d[0] / d[1]);
                    each[0].push(d[0]);
                    each[1].push(d[1]);
                }
            }
            let m = median(&mut ratios);
            println!(
                "{name:6} {kind:9} {:14.3} {:14.3}   {m:6.2}  ({:.2} to {:.2})",
                median(&mut each[0]),
                median(&mut each[1]),
                ratios[0],
                ratios[ratios.len() - 1]
            );
        }
    }
}
