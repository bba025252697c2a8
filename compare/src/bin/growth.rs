//! growth [ROUNDS [FILE.svg]]   how the time of a fetch grows, on the library and on the original Rust in one process: with the Gaussians, the
//! dimension of the vector, the frames that it brings in, and the age of the stream. A table on standard output, and a plot as an SVG.
//! What is not varied: 512 Gaussians, 40 dimensions, vectors of 100, ten frames, an age of 200 frames.
use compare::gen::Rng;
use compare::machine::{self, model_needs, stream_needs, DEFAULT};
use compare::model::{self, Size};
use compare::original::plain;
use compare::rattle::{self, Call};
use compare::timed::{measured, median};
use std::fmt::Write;
use std::hint::black_box;

const ROUNDS: usize = 9;
/// Frames that the rooms hold beside those of a batch.
const SPARE: usize = 64;
const AGE: usize = 200;

fn us(v: &[u64]) -> Vec<usize> {
    v.iter().map(|x| *x as usize).collect()
}

/// A model on both sides, and frames that come again and again.
struct Pair {
    machine: machine::Model,
    model: rattle::Model,
    info: plain::Info,
    size: Size,
    frames: Vec<Vec<f32>>,
}

fn pair(size: Size) -> Pair {
    let mut r = Rng::new(3);
    let files = model::files(&mut r, &DEFAULT, size);
    let m = machine::load(&DEFAULT, &files[0], &files[1], &files[2], &files[3], &[0; 8]).expect("the machine loads the model");
    let (n, loaded, wrong) = rattle::load(&DEFAULT, &files, &us(&model_needs(&m.dims, &m.opts)), rattle::load_scratch(size.feat, size.ivec), Some(&m));
    assert!(n == 0 && wrong.is_none(), "load: {n} {wrong:?}");
    let info = plain::open(&DEFAULT, &files).unwrap().unwrap();
    let frames = (0..500).map(|_| model::frame(&mut r, &DEFAULT, size.base)).collect();
    Pair { machine: m, model: loaded.unwrap(), info, size, frames }
}

/// The time of a fetch that brings in `batch` frames at an age of `age` frames, on each side in turn: the medians, and that of the ratios.
fn fetches(p: &Pair, batch: usize, age: usize, rounds: usize) -> [f64; 3] {
    let right = DEFAULT.right as usize;
    let room = batch + SPARE;
    let b = p.size.base;
    let mut lens = vec![room * b, (room + DEFAULT.window as usize) * b, 16, 16];
    lens.extend(us(&stream_needs(&p.machine.dims)));
    let (n, s, wrong) = rattle::Stream::fresh(&p.model, lens[..].try_into().unwrap(), &[]);
    assert!(n == 0 && wrong.is_none());
    let (mut s, mut o) = (s.unwrap(), plain::Stream::new(&p.info));
    let (mut bits, mut out) = (vec![0u32; p.size.ivec], vec![0f32; p.size.ivec]);
    let mut accepted = 0;
    let mut next = 0;
    let mut each = [vec![], vec![]];
    let mut ratios = vec![];
    // one fetch to warm up at the age asked for
    let mut timed = 0;
    while timed <= rounds {
        let old = next >= age;
        // until it is old enough, frames come in tens
        let step = if old { batch } else { 10.min(age - next) };
        while accepted < next + step + right {
            let x = &p.frames[accepted % p.frames.len()];
            let a = s.call(Call::Push(x));
            assert!(a.refusal == 0, "push: {}", a.refusal);
            o.push_frame(x);
            accepted += 1;
        }
        let f = next + step - 1;
        let mut d = [0.0; 2];
        for side in if timed % 2 == 0 { [0, 1] } else { [1, 0] } {
            let ns = measured(&mut || {
                if side == 0 {
                    assert!(black_box(s.call(Call::Fetch(f, &mut bits))).refusal == 0);
                } else {
                    o.get_frame(f, &mut out);
                }
            });
            d[side] = ns as f64 / 1e3;
        }
        assert!(bits.iter().zip(&out).all(|(x, y)| *x == y.to_bits()), "the vectors differ");
        next += step;
        assert!(s.call(Call::Forget(next)).refusal == 0);
        o.forget_before(next);
        if old {
            if timed > 0 {
                each[0].push(d[0]);
                each[1].push(d[1]);
                ratios.push(d[0] / d[1]);
            }
            timed += 1;
        }
    }
    [median(&mut each[0]), median(&mut each[1]), median(&mut ratios)]
}

struct Panel {
    name: &'static str,
    rows: Vec<(usize, [f64; 3])>,
}

fn number(n: usize) -> String {
    let digits = n.to_string();
    let mut t = String::new();
    for (k, c) in digits.chars().enumerate() {
        if k > 0 && (digits.len() - k) % 3 == 0 {
            t.push(',');
        }
        t.push(c);
    }
    t
}

/// Four panels, both axes by powers of ten.
fn svg(panels: &[Panel]) -> String {
    let (w, h, left, top, wide, tall) = (460.0, 320.0, 60.0, 40.0, 370.0, 220.0);
    let mut t = String::new();
    writeln!(t, "<svg xmlns=\"http://www.w3.org/2000/svg\" width=\"{}\" height=\"{}\" font-family=\"sans-serif\" font-size=\"12\">", 2.0 * w, 2.0 * h).unwrap();
    writeln!(t, "<rect width=\"100%\" height=\"100%\" fill=\"white\"/>").unwrap();
    for (k, p) in panels.iter().enumerate() {
        let (x0, y0) = (w * (k % 2) as f64 + left, h * (k / 2) as f64 + top);
        let place = |n: usize| (n as f64).log10();
        let (lo, hi) = (place(p.rows[0].0), place(p.rows[p.rows.len() - 1].0));
        let times = || p.rows.iter().flat_map(|r| [r.1[0], r.1[1]]);
        let (bottom, ceiling) = (times().fold(f64::MAX, f64::min).log10().floor(), times().fold(0.0, f64::max).log10().ceil());
        let x = |n: usize| x0 + wide * (place(n) - lo) / (hi - lo);
        let y = |us: f64| y0 + tall * (ceiling - us.log10()) / (ceiling - bottom);
        writeln!(t, "<text x=\"{x0}\" y=\"{}\" font-weight=\"bold\">µs of a fetch against {}</text>", y0 - 14.0, p.name).unwrap();
        writeln!(t, "<rect x=\"{x0}\" y=\"{y0}\" width=\"{wide}\" height=\"{tall}\" fill=\"none\" stroke=\"#888\"/>").unwrap();
        for e in bottom as i32..=ceiling as i32 {
            let at = y(10f64.powi(e));
            writeln!(t, "<line x1=\"{x0}\" x2=\"{}\" y1=\"{at:.1}\" y2=\"{at:.1}\" stroke=\"#ddd\"/>", x0 + wide).unwrap();
            let label = if e >= 0 { number(10usize.pow(e as u32)) } else { 10f64.powi(e).to_string() };
            writeln!(t, "<text x=\"{}\" y=\"{:.1}\" text-anchor=\"end\">{label}</text>", x0 - 6.0, at + 4.0).unwrap();
        }
        for (n, _) in &p.rows {
            writeln!(t, "<text x=\"{:.1}\" y=\"{}\" text-anchor=\"middle\">{}</text>", x(*n), y0 + tall + 16.0, number(*n)).unwrap();
        }
        for (side, colour, name) in [(1, "#b35900", "original"), (0, "#0050a0", "library")] {
            let points: Vec<_> = p.rows.iter().map(|(n, d)| format!("{:.1},{:.1}", x(*n), y(d[side]))).collect();
            writeln!(t, "<polyline points=\"{}\" fill=\"none\" stroke=\"{colour}\" stroke-width=\"2\"/>", points.join(" ")).unwrap();
            for (n, d) in &p.rows {
                writeln!(t, "<circle cx=\"{:.1}\" cy=\"{:.1}\" r=\"3\" fill=\"{colour}\"/>", x(*n), y(d[side])).unwrap();
            }
            let at = y0 + 16.0 + 16.0 * side as f64;
            writeln!(t, "<text x=\"{}\" y=\"{at}\" fill=\"{colour}\">{name}</text>", x0 + 8.0).unwrap();
        }
    }
    t.push_str("</svg>\n");
    t
}

fn main() {
    let a: Vec<String> = std::env::args().collect();
    let rounds = a.get(1).map_or(ROUNDS, |s| s.parse().expect("number")).max(3);
    let large = model::LARGE;
    let mut panels = vec![];
    let mut gauss = Panel { name: "Gaussians", rows: vec![] };
    for g in [64, 128, 256, 512, 1024] {
        gauss.rows.push((g, fetches(&pair(Size { gauss: g, ..large }), 10, AGE, rounds)));
    }
    panels.push(gauss);
    let mut ivec = Panel { name: "dimension of the vector", rows: vec![] };
    for s in [16, 32, 64, 128] {
        ivec.rows.push((s, fetches(&pair(Size { ivec: s, ..large }), 10, AGE, rounds)));
    }
    panels.push(ivec);
    let p = pair(large);
    let mut batch = Panel { name: "frames brought in", rows: vec![] };
    for n in [1, 10, 100, 1000] {
        batch.rows.push((n, fetches(&p, n, AGE, rounds)));
    }
    panels.push(batch);
    let mut age = Panel { name: "age of the stream in frames", rows: vec![] };
    for n in [100, 1_000, 10_000, 100_000] {
        age.rows.push((n, fetches(&p, 10, n, rounds)));
    }
    panels.push(age);
    println!("| of a fetch | | library µs | original µs | ratio |");
    println!("|---|---|---|---|---|");
    for p in &panels {
        for (n, d) in &p.rows {
            println!("| {} | {} | {:.1} | {:.1} | {:.2} |", p.name, number(*n), d[0], d[1], d[2]);
        }
    }
    if let Some(file) = a.get(2) {
        std::fs::write(file, svg(&panels)).expect("the plot is written");
    }
}
