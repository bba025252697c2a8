//! Request No. 14: the program's totals, against a reference written from the request on the machine.
use crate::gen::Rng;
use crate::machine::{self as m, Answer, Options, Stream, DEFAULT};
use std::collections::BTreeMap;
use std::io::Write;
use std::process::{Command, Stdio};

/// 32 bits of state, not 0.
struct Draw(u32);

impl Draw {
    fn next(&mut self) -> u32 {
        let a = self.0 ^ (self.0 << 13);
        let b = a ^ (a >> 17);
        self.0 = b ^ (b << 5);
        self.0
    }
    fn number(&mut self) -> f32 {
        (i64::from(self.next() % 2001) - 1000) as f32 / 8.0
    }
    fn below(&mut self, n: u64) -> u64 {
        u64::from(self.next()) % n
    }
}

/// Three runs of digits parted by blanks, at most 100 bytes; a run too long for a u128 counts as the highest.
fn read(input: &[u8]) -> Option<[u128; 3]> {
    if input.len() > 100 {
        return None;
    }
    let blank = |c: u8| c == 32 || (9..=13).contains(&c);
    let runs: Vec<&[u8]> = input.split(|&c| blank(c)).filter(|w| !w.is_empty()).collect();
    if runs.len() != 3 || runs.iter().any(|w| w.iter().any(|c| !c.is_ascii_digit())) {
        return None;
    }
    let number = |w: &[u8]| w.iter().fold(0u128, |n, c| n.saturating_mul(10).saturating_add(u128::from(c - b'0')));
    Some([number(runs[0]), number(runs[1]), number(runs[2])])
}

/// P9's GMM and extractor.
const GMM: &[u8] = b"\0B<DiagGMM> <WEIGHTS> FV \x04\x01\0\0\0\0\0\x80?<MEANS_INVVARS> FM \x04\x01\0\0\0\x04\x01\0\0\0\0\0\x80?<INV_VARS> FM \x04\x01\0\0\0\x04\x01\0\0\0\0\0\x80?</DiagGMM> ";
const EXTRACTOR: &[u8] = b"\0B<IvectorExtractor> <w> DM \x04\0\0\0\0\x04\0\0\0\0<w_vec> DV \x04\0\0\0\0<M> \x04\x01\0\0\0DM \x04\x01\0\0\0\x04\x01\0\0\0\0\0\0\0\0\0\0@<SigmaInv> DP \x04\x01\0\0\0\0\0\0\0\0\0\xf0?<IvectorOffset> \x08\0\0\0\0\0\0\xf0?</IvectorExtractor> ";

/// A stream over P9's model with a base dimension: window 20, 64 frames, 80 rows, 64 waiting changes.
fn stream(base: usize) -> Stream {
    let o = Options { left: 0, right: 0, posterior_scale: 0.25, window: 20, ..DEFAULT };
    let mut lda = b"\0BFM \x04\x01\0\0\0\x04".to_vec();
    lda.extend((base as u32).to_le_bytes());
    lda.extend([0, 0, 128, 63].repeat(base));
    let row = format!("{}100", "50 ".repeat(base));
    let cmvn = format!("[ {row}\n{row} ]");
    let model = m::load(&o, GMM, EXTRACTOR, &lda, cmvn.as_bytes(), &[0; 8]).expect("P9's model");
    let rooms = m::room_lens(&m::model_needs(&model.dims, &o), &[0; 8]);
    let lens = [64 * base as u64, 80 * base as u64, 64, 64];
    Stream::fresh(&model, &rooms, &lens, &[0; 5], &[]).expect("stream").0
}

/// What the program prints, its lines; and how many calls it played.
pub fn reference(input: &[u8]) -> (Vec<String>, u64) {
    let Some([seed, base, count]) = read(input) else {
        return (vec!["33".into()], 0);
    };
    if !(1..=0xFFFF_FFFF).contains(&seed) || !(1..=64).contains(&base) || !(1..=10_000).contains(&count) {
        return (vec!["33".into()], 0);
    }
    let mut s = stream(base as usize);
    let mut d = Draw(seed as u32);
    let (mut calls, mut refusals, mut greatest, mut pushes) = ([0u64; 5], BTreeMap::new(), 0, 0u64);
    for _ in 0..count {
        let kind = (d.next() % 5) as usize;
        let a: Answer = match kind {
            0 => {
                pushes += 1;
                let x: Vec<f32> = (0..base).map(|_| d.number()).collect();
                s.push(&x, &[])
            }
            1 => s.finish(&[]),
            2 => {
                let f = d.below(pushes + 16);
                s.change(&[f], &[d.number()], &[])
            }
            3 => s.forget(d.below(pushes + 1), &[]),
            _ => s.fetch(d.below(pushes + 1), 1, &[]),
        };
        calls[kind] += 1;
        if a.refusal != 0 {
            *refusals.entry(a.refusal).or_insert(0u64) += 1;
        }
        greatest = greatest.max(a.held.map_or(0, |h| h.0));
    }
    let mut v: Vec<String> = calls.iter().map(|n| n.to_string()).collect();
    v.extend(refusals.iter().map(|(n, c)| format!("{n} {c}")));
    v.push(greatest.to_string());
    (v, count as u64)
}

/// The calls that are drawn, as the program's script has them, and how many numbers their pushes have; none where a size is outside its limits. A fetch, a
/// forget and a change name a frame, a push and a change have numbers by their bits.
fn drawn(seed: u64, base: u64, count: u64) -> Option<(String, u64)> {
    if !(1..=0xFFFF_FFFF).contains(&seed) || !(1..=64).contains(&base) || !(1..=10_000).contains(&count) {
        return None;
    }
    let mut d = Draw(seed as u32);
    let mut pushes = 0;
    let mut v = String::from("0");
    let bits = |x: f32| format!(" {:08x}", x.to_bits());
    for _ in 0..count {
        let kind = d.next() % 5;
        v += &format!(" {kind}");
        match kind {
            0 => {
                pushes += 1;
                (0..base).for_each(|_| v += &bits(d.number()));
            }
            1 => {}
            2 => {
                v += &format!(" {}", d.below(pushes + 16));
                v += &bits(d.number());
            }
            _ => v += &format!(" {}", d.below(pushes + 1)),
        }
    }
    Some((v, pushes * base))
}

/// A line of the script that has lists filled, and its answer. Lists are long enough, just so, or one place short.
fn list_line(r: &mut Rng) -> (String, String) {
    let seed = if r.p(3) { [0, 1 << 32, u64::MAX][r.n(3) as usize] } else { r.r(1, 0xFFFF_FFFF) };
    let base = if r.p(3) { [0, 65][r.n(2) as usize] } else { r.r(1, 64) };
    let count = if r.p(3) { [0, 10_001][r.n(2) as usize] } else { r.r(1, 150) };
    let (calls, numbers) = drawn(seed, base, count).unwrap_or_default();
    let frames = [16_000, numbers, numbers.saturating_sub(1)][[0, 0, 1, 1, 1, 2][r.n(6) as usize]];
    let places = [10_000, count, count.saturating_sub(1)][[0, 0, 1, 1, 1, 2][r.n(6) as usize]];
    let taken = !calls.is_empty() && numbers <= frames && count <= places;
    (format!("h {seed} {base} {count} {frames} {places}\n"), if taken { calls } else { "33".into() })
}

/// An input: most are in order, the others near one of the edges.
fn input(r: &mut Rng) -> Vec<u8> {
    let blanks = |r: &mut Rng, least: u64| -> Vec<u8> { (0..r.r(least, 3)).map(|_| [32, 32, 9, 10, 11, 12, 13][r.n(7) as usize]).collect() };
    let seed = match r.n(10) {
        0 => r.r(1, 5),
        1 => 0xFFFF_FFFF - r.n(3),
        2 if r.p(40) => [0, 1 << 32, 1 << 33, u64::MAX][r.n(4) as usize],
        _ => r.r(1, 0xFFFF_FFFF),
    };
    let base = match r.n(12) {
        0 => 1,
        1 => 64,
        2 if r.p(40) => [0, 65, 1000, u64::MAX][r.n(4) as usize],
        _ => r.r(1, 64),
    };
    let count = match r.n(16) {
        0 => r.r(1, 5),
        1 => r.r(5_000, 10_000),
        2 if r.p(40) => [0, 10_001, 1 << 40, u64::MAX][r.n(4) as usize],
        _ => r.r(1, 1_200),
    };
    let mut v = blanks(r, 0);
    for n in [seed, base, count] {
        if r.p(5) {
            v.extend(vec![b'0'; r.r(1, 4) as usize]);
        }
        v.extend(n.to_string().bytes());
        let least = u64::from(!r.p(2));
        v.extend(blanks(r, least));
    }
    match r.n(14) {
        0 => v[..].last_mut().into_iter().for_each(|c| *c = [0, b'-', b'x', 128, b'.'][r.n(5) as usize]),
        1 => {
            let i = r.n(v.len() as u64) as usize;
            v[i] = [0, b'+', b',', 0x85, 0xA0, 14, 8][r.n(7) as usize];
        }
        2 => v.extend([b" 7".to_vec(), b"7".to_vec()][r.n(2) as usize].clone()),
        3 => v.truncate(r.n(v.len() as u64) as usize),
        4 => v.extend(vec![32; r.r(60, 101) as usize]),
        5 => {
            // leading zeros up to 100 bytes, or one more
            let n = (100 + r.n(3)).saturating_sub(v.len() as u64) as usize;
            let mut w = vec![if r.p(50) { b'0' } else { b' ' }; n];
            w.extend(v);
            v = w;
        }
        _ => {}
    }
    v
}

fn program() -> String {
    std::env::var("SHOFRAKIN_TRY").unwrap_or_else(|_| format!("{}/../crates/try_program/out/try_program", env!("CARGO_MANIFEST_DIR")))
}

/// What the program writes to its standard output.
fn played(arguments: &[&str], bytes: &[u8]) -> String {
    let mut p = Command::new(program())
        .args(arguments)
        .stdin(Stdio::piped())
        .stdout(Stdio::piped())
        .spawn()
        .expect("the program try_program: `echo 1 40 1 | rt run` in crates/try_program builds it");
    let mut to = p.stdin.take().unwrap();
    let all = bytes.to_vec();
    let h = std::thread::spawn(move || to.write_all(&all));
    let out = p.wait_with_output().expect("its output");
    // it may have read no further than the 101 bytes that show an input to be too long
    let _ = h.join().unwrap();
    String::from_utf8_lossy(&out.stdout).into_owned()
}

/// COUNT inputs from the seed FIRST, as scripts, every fiftieth alone too; and half as many lists. How many differ.
pub fn run(first: u64, count: u64) -> u64 {
    let inputs: Vec<Vec<u8>> = (first..first + count).map(|s| input(&mut Rng::new(s))).collect();
    let (mut differ, mut calls, mut bad, mut alone) = (0u64, 0u64, 0u64, 0u64);
    let mut met: BTreeMap<String, u64> = BTreeMap::new();
    for part in inputs.chunks(500) {
        let script: String = part.iter().map(|b| format!("i {} {}\n", b.len(), b.iter().map(|c| format!("{c:02x}")).collect::<String>())).collect();
        let said = played(&["script"], script.as_bytes());
        let lines: Vec<&str> = said.lines().collect();
        for (i, b) in part.iter().enumerate() {
            let (want, n) = reference(b);
            calls += n;
            bad += u64::from(n == 0);
            for l in &want {
                if let Some((r, c)) = l.split_once(' ') {
                    *met.entry(r.to_string()).or_insert(0) += c.parse::<u64>().unwrap();
                }
            }
            let got = lines.get(i).copied().unwrap_or("");
            if got != want.join(";") {
                differ += 1;
                println!("differs on {:?}: {got} for {}", String::from_utf8_lossy(b), want.join(";"));
            }
            if i % 50 == 0 {
                alone += 1;
                if played(&[], b) != want.join("\n") + "\n" {
                    differ += 1;
                    println!("differs alone on {:?}", String::from_utf8_lossy(b));
                }
            }
        }
        if lines.len() != part.len() {
            differ += 1;
            println!("{} lines for {} inputs", lines.len(), part.len());
        }
    }
    // the lists themselves, whose numbers no total shows
    let (mut filled, mut short) = (0u64, 0u64);
    let cases: Vec<(String, String)> = (first..first + count / 2).map(|s| list_line(&mut Rng::new(s ^ 0x5EED))).collect();
    for part in cases.chunks(500) {
        let script: String = part.iter().map(|c| c.0.as_str()).collect();
        let said = played(&["script"], script.as_bytes());
        let lines: Vec<&str> = said.lines().collect();
        for (i, (line, want)) in part.iter().enumerate() {
            filled += u64::from(want != "33");
            short += u64::from(want == "33");
            if lines.get(i).copied().unwrap_or("") != want {
                differ += 1;
                println!("differs on {}", line.trim_end());
            }
        }
    }
    println!("lists {}: {filled} filled, {short} answered 33", cases.len());
    println!("inputs {count} from the seed {first}: {bad} answered 33, {calls} calls played, {alone} inputs alone too");
    println!("refusals met {met:?}");
    println!("differences {differ}");
    differ
}
