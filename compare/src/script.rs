//! Scripts of calls (FORMAT.md): parse, print, and run on the machine.
use crate::gen::{self, What};
use crate::machine::*;
use crate::trigger::{Ended, Round, Utterance};
use std::io::{BufRead, BufWriter, Write};

#[derive(Clone, Debug)]
pub enum Cmd {
    Options(Options),
    /// 0 gmm, 1 extractor, 2 lda, 3 cmvn
    Bytes(usize, Vec<u8>),
    Model([i64; 8]),
    Tables,
    Stream([u64; 4], [i64; 5]),
    Push(Vec<f32>),
    Finish,
    Change(Vec<u64>, Vec<f32>),
    Forget(u64),
    /// Request 12.
    Window(u64),
    Fetch(u64, usize),
    Table(u64, f32, u64, Vec<i32>),
    Trace(u64, Vec<i32>, Vec<u64>, Vec<u64>),
    Weigh(u64, u64, u64, u64),
    /// Request 11: the length of the vector buffer, the frame buffer, the block.
    Step(usize, Vec<f32>, Vec<u8>),
    /// Request 13.
    Round(Utterance),
    Alter(Alter),
    SAlter(SAlter),
    End,
}

fn h32(v: f32) -> String {
    let b = if v.is_nan() { v.to_bits() } else { v.to_bits() };
    format!("{b:08x}")
}
fn list<T, F: Fn(&T) -> String>(v: &[T], f: F) -> String {
    let mut s = format!("{}", v.len());
    for x in v {
        s.push(' ');
        s.push_str(&f(x));
    }
    s
}
fn joined<T: ToString>(v: &[T]) -> String {
    v.iter().map(|x| x.to_string()).collect::<Vec<_>>().join(" ")
}

fn hex(b: &[u8]) -> String {
    b.iter().map(|x| format!("{x:02x}")).collect()
}

pub fn print(c: &Cmd) -> String {
    match c {
        Cmd::Options(o) => format!(
            "o {} {} {} {} {} {} {:08x} {:08x} {:016x} {:08x}",
            o.left,
            o.right,
            o.window,
            o.global_frames,
            o.num_gselect,
            o.num_cg_iters,
            o.min_post.to_bits(),
            o.posterior_scale.to_bits(),
            o.max_count.to_bits(),
            o.min_energy.to_bits()
        ),
        Cmd::Bytes(k, b) => format!("{} {} {}", ['g', 'e', 'l', 'c'][*k], b.len(), hex(b)),
        Cmd::Step(n, x, b) => format!("r {n} {} {} {}", list(x, |v| h32(*v)), b.len(), hex(b)),
        Cmd::Round(u) => format!(
            "u {} {} {} {} {} {} {} {} {}",
            u.start,
            list(&u.frames, |v| h32(*v)),
            list(&u.phones, |v| v.to_string()),
            list(&u.starts, |v| v.to_string()),
            list(&u.ends, |v| v.to_string()),
            joined(&u.lent),
            u.voices,
            list(&u.enrolled, |v| h32(*v)),
            h32(u.limit)
        ),
        Cmd::Model(d) => format!("m {}", joined(d)),
        Cmd::Tables => "k".into(),
        Cmd::Stream(l, d) => format!("s {} {}", joined(l), joined(d)),
        Cmd::Push(x) => format!("p {}", list(x, |v| h32(*v))),
        Cmd::Finish => "f".into(),
        Cmd::Change(f, w) => format!("w {} {}", list(f, |v| v.to_string()), list(w, |v| h32(*v))),
        Cmd::Forget(f) => format!("d {f}"),
        Cmd::Window(v) => format!("n {v}"),
        Cmd::Fetch(f, n) => format!("v {f} {n}"),
        Cmd::Table(r, w, s, p) => format!("t {r} {} {s} {}", h32(*w), list(p, |v| v.to_string())),
        Cmd::Trace(n, p, s, e) => format!("b {n} {} {} {}", list(p, |v| v.to_string()), list(s, |v| v.to_string()), list(e, |v| v.to_string())),
        Cmd::Weigh(a, b, c, d) => format!("a {a} {b} {c} {d}"),
        Cmd::Alter(Alter::Room(k, d)) => format!("x r {k} {d}"),
        Cmd::Alter(Alter::Field(n, v)) => format!("x n {n} {v}"),
        Cmd::Alter(Alter::Waiting(w)) => format!("x w {}", list(w, |v| format!("{} {}", v.0, h32(v.1)))),
        Cmd::SAlter(SAlter::Room(d)) => format!("y r {d}"),
        Cmd::SAlter(SAlter::Len(d)) => format!("y l {d}"),
        Cmd::SAlter(SAlter::Sub(d)) => format!("y s {d}"),
        Cmd::SAlter(SAlter::Weight(d)) => format!("y w {d:08x}"),
        Cmd::SAlter(SAlter::Phones(d)) => format!("y p {d}"),
        Cmd::End => "z".into(),
    }
}

struct Toks<'a>(std::str::Split<'a, char>);
impl<'a> Toks<'a> {
    fn s(&mut self) -> &'a str {
        self.0.next().expect("line too short")
    }
    fn u(&mut self) -> u64 {
        self.s().parse().expect("number")
    }
    fn i(&mut self) -> i64 {
        self.s().parse().expect("number")
    }
    fn f(&mut self) -> f32 {
        f32::from_bits(u32::from_str_radix(self.s(), 16).expect("hex"))
    }
    fn bytes(&mut self) -> Vec<u8> {
        let n = self.u() as usize;
        let h = self.s().as_bytes();
        assert!(h.len() == 2 * n);
        let v = |c: u8| (c as char).to_digit(16).expect("hex") as u8;
        (0..n).map(|i| v(h[2 * i]) * 16 + v(h[2 * i + 1])).collect()
    }
    fn list<T, F: FnMut(&mut Self) -> T>(&mut self, mut f: F) -> Vec<T> {
        let n = self.u();
        (0..n).map(|_| f(self)).collect()
    }
}

pub fn parse(line: &str) -> Cmd {
    let mut t = Toks(line.split(' '));
    match t.s() {
        "o" => Cmd::Options(Options {
            left: t.u(),
            right: t.u(),
            window: t.u(),
            global_frames: t.u(),
            num_gselect: t.u(),
            num_cg_iters: t.u(),
            min_post: t.f(),
            posterior_scale: t.f(),
            max_count: f64::from_bits(u64::from_str_radix(t.s(), 16).expect("hex")),
            min_energy: t.f(),
        }),
        k @ ("g" | "e" | "l" | "c") => {
            let b = t.bytes();
            Cmd::Bytes("gelc".find(k).unwrap(), b)
        }
        "r" => Cmd::Step(t.u() as usize, t.list(|t| t.f()), t.bytes()),
        "u" => Cmd::Round(Utterance {
            start: t.u(),
            frames: t.list(|t| t.f()),
            phones: t.list(|t| t.i() as i32),
            starts: t.list(|t| t.u()),
            ends: t.list(|t| t.u()),
            lent: std::array::from_fn(|_| t.u()),
            voices: t.u(),
            enrolled: t.list(|t| t.f()),
            limit: t.f(),
        }),
        "m" => Cmd::Model(std::array::from_fn(|_| t.i())),
        "k" => Cmd::Tables,
        "s" => Cmd::Stream(std::array::from_fn(|_| t.u()), std::array::from_fn(|_| t.i())),
        "p" => Cmd::Push(t.list(|t| t.f())),
        "f" => Cmd::Finish,
        "w" => {
            let a = t.list(|t| t.u());
            Cmd::Change(a, t.list(|t| t.f()))
        }
        "d" => Cmd::Forget(t.u()),
        "n" => Cmd::Window(t.u()),
        "v" => Cmd::Fetch(t.u(), t.u() as usize),
        "t" => Cmd::Table(t.u(), t.f(), t.u(), t.list(|t| t.i() as i32)),
        "b" => Cmd::Trace(t.u(), t.list(|t| t.i() as i32), t.list(|t| t.u()), t.list(|t| t.u())),
        "a" => Cmd::Weigh(t.u(), t.u(), t.u(), t.u()),
        "x" => Cmd::Alter(match t.s() {
            "r" => Alter::Room(t.u() as usize, t.i()),
            "n" => Alter::Field(t.s().into(), t.u()),
            _ => Alter::Waiting(t.list(|t| (t.u(), t.f()))),
        }),
        "y" => Cmd::SAlter(match t.s() {
            "r" => SAlter::Room(t.i()),
            "l" => SAlter::Len(t.u()),
            "s" => SAlter::Sub(t.u()),
            "w" => SAlter::Weight(t.f().to_bits()),
            _ => SAlter::Phones(t.u()),
        }),
        "z" => Cmd::End,
        k => panic!("unknown line {k:?}"),
    }
}

/// Runs commands on the machine.
#[derive(Clone, Default)]
pub struct Runner {
    pub opts: Option<Options>,
    pub bytes: [Vec<u8>; 4],
    pub model: Option<(Model, Vec<u64>)>,
    pub stream: Option<Stream>,
    pub sil: Option<Silence>,
    pub al: Vec<Alter>,
    pub sal: Vec<SAlter>,
    pub last: Option<Answer>,
    pub last_weigh: Option<Vec<(u64, f32)>>,
    /// The block after a step that was not answered 10.
    pub last_block: Option<Vec<u8>>,
    pub last_round: Option<Round>,
    pub refusals: std::collections::BTreeMap<(char, u32), u64>,
}

pub fn show(a: &Answer) -> String {
    let mut s = format!("{}", a.refusal);
    if let Some((h, r)) = a.held {
        s.push_str(&format!(" {h} {r}"));
    }
    if let Some((n, v)) = &a.vector {
        s.push_str(&format!(" {n} {}", a.nans));
        for b in v {
            s.push_str(&format!(" {b:08x}"));
        }
    }
    s
}

pub fn canon32(v: f32) -> u32 {
    if v.is_nan() {
        0x7FC0_0000
    } else {
        v.to_bits()
    }
}
pub fn canon64(v: f64) -> u64 {
    if v.is_nan() {
        0x7FF8_0000_0000_0000
    } else {
        v.to_bits()
    }
}

impl Runner {
    fn note(&mut self, k: char, n: u32) {
        *self.refusals.entry((k, n)).or_insert(0) += 1;
    }

    /// The answer line, for a command that has one.
    pub fn exec(&mut self, c: &Cmd) -> Option<String> {
        self.last = None;
        self.last_weigh = None;
        self.last_block = None;
        self.last_round = None;
        match c {
            Cmd::Options(o) => {
                self.opts = Some(*o);
                None
            }
            Cmd::Bytes(k, b) => {
                self.bytes[*k] = b.clone();
                None
            }
            Cmd::Alter(a) => {
                self.al.push(a.clone());
                None
            }
            Cmd::SAlter(a) => {
                self.sal.push(a.clone());
                None
            }
            Cmd::End => {
                let r = std::mem::take(&mut self.refusals);
                *self = Runner { refusals: r, ..Default::default() };
                None
            }
            Cmd::Model(d) => {
                self.model = None;
                self.stream = None;
                let [g, e, l, t] = &self.bytes;
                let n = match load(&self.opts.expect("no options"), g, e, l, t, d) {
                    Ok(m) => {
                        let lens = room_lens(&model_needs(&m.dims, &m.opts), d);
                        self.model = Some((m, lens));
                        0
                    }
                    Err(n) => n,
                };
                self.note('m', n);
                self.last = Some(Answer::alone(n));
                Some(format!("{n}"))
            }
            Cmd::Tables => {
                let m = &self.model.as_ref().expect("no model").0;
                let mut s = format!(
                    "{} {} {} {} {} {} {:016x}",
                    m.dims.gmm_gauss,
                    m.dims.ext_gauss,
                    m.dims.feat,
                    m.dims.ivec,
                    m.dims.base,
                    m.dims.lda_cols,
                    m.prior.to_bits()
                );
                let a = |s: &mut String, v: &[f32]| v.iter().for_each(|x| s.push_str(&format!(" {:08x}", canon32(*x))));
                let b = |s: &mut String, v: &[f64]| v.iter().for_each(|x| s.push_str(&format!(" {:016x}", canon64(*x))));
                a(&mut s, &m.gconsts);
                a(&mut s, &m.means_t);
                a(&mut s, &m.invvars_t);
                b(&mut s, &m.sim);
                b(&mut s, &m.u);
                a(&mut s, &m.lda_t);
                a(&mut s, &m.lda_offset);
                b(&mut s, &m.global);
                Some(s)
            }
            Cmd::Stream(l, d) => {
                let al = std::mem::take(&mut self.al);
                self.stream = None;
                let (m, lens) = self.model.as_ref().expect("no model");
                let a = match Stream::fresh(m, lens, l, d, &al) {
                    Ok((s, a)) => {
                        self.stream = Some(s);
                        a
                    }
                    Err(n) => Answer::alone(n),
                };
                self.note('s', a.refusal);
                let s = show(&a);
                self.last = Some(a);
                Some(s)
            }
            Cmd::Push(_) | Cmd::Finish | Cmd::Change(..) | Cmd::Forget(_) | Cmd::Window(_) | Cmd::Fetch(..) => {
                let al = std::mem::take(&mut self.al);
                let st = self.stream.as_mut().expect("no stream");
                let (k, a) = match c {
                    Cmd::Push(x) => ('p', st.push(x, &al)),
                    Cmd::Finish => ('f', st.finish(&al)),
                    Cmd::Change(f, w) => ('w', st.change(f, w, &al)),
                    Cmd::Forget(f) => ('d', st.forget(*f, &al)),
                    Cmd::Window(v) => ('n', st.set_window(*v, &al)),
                    Cmd::Fetch(f, n) => ('v', st.fetch(*f, *n, &al)),
                    _ => unreachable!(),
                };
                self.note(k, a.refusal);
                let s = show(&a);
                self.last = Some(a);
                Some(s)
            }
            Cmd::Step(n, x, b) => {
                let al = std::mem::take(&mut self.al);
                let mut b = b.clone();
                let (k, answer) = crate::registers::step(self.stream.as_mut().expect("no stream"), &mut b, x, *n, &al);
                self.note('r', answer.as_ref().map_or(k, |a| a.refusal));
                if k != 0 {
                    return Some(format!("{k}"));
                }
                let mut s = format!("0 {}", hex(&b));
                if let Some(Answer { vector: Some((_, v)), .. }) = &answer {
                    v.iter().for_each(|b| s.push_str(&format!(" {b:08x}")));
                }
                self.last = answer;
                self.last_block = Some(b);
                Some(s)
            }
            Cmd::Round(u) => {
                let (al, sal) = (std::mem::take(&mut self.al), std::mem::take(&mut self.sal));
                let (st, t) = (self.stream.as_mut().expect("no stream"), self.sil.as_mut().expect("no table"));
                let r = crate::trigger::round(st, t, u, &al, &sal);
                let (n, mut s) = match r.ended {
                    Ended::Refused(n, step) => (n, format!("1 {n} {step}")),
                    Ended::NoVector => (0, "2".into()),
                    Ended::Nobody => (0, "3".into()),
                    Ended::Voice(i, d) => (0, format!("4 {i} {d:08x}")),
                };
                self.note('u', n);
                if let Some(v) = &r.changes {
                    s.push_str(&format!(" {}", list(v, |x| format!("{} {:08x}", x.0, x.1.to_bits()))));
                }
                r.vector.iter().flatten().for_each(|b| s.push_str(&format!(" {b:08x}")));
                self.last_round = Some(r);
                Some(s)
            }
            Cmd::Table(r, w, s, p) => {
                let n = match Silence::make(*r, p, *w, *s) {
                    Ok(t) => {
                        self.sil = Some(t);
                        0
                    }
                    Err(n) => {
                        self.sil = None;
                        n
                    }
                };
                self.note('t', n);
                self.last = Some(Answer::alone(n));
                Some(format!("{n}"))
            }
            Cmd::Trace(n, p, s, e) => {
                let al = std::mem::take(&mut self.sal);
                let r = self.sil.as_mut().expect("no table").trace(*n, p, s, e, &al);
                self.note('b', r);
                self.last = Some(Answer::alone(r));
                Some(format!("{r}"))
            }
            Cmd::Weigh(a, b, lf, lw) => {
                let al = std::mem::take(&mut self.sal);
                match self.sil.as_mut().expect("no table").weigh(*a, *b, *lf, *lw, &al) {
                    Ok(v) => {
                        self.note('a', 0);
                        let mut s = format!("0 {}", v.len());
                        for x in &v {
                            s.push_str(&format!(" {} {:08x}", x.0, x.1.to_bits()));
                        }
                        self.last = Some(Answer::alone(0));
                        self.last_weigh = Some(v);
                        Some(s)
                    }
                    Err(n) => {
                        self.note('a', n);
                        self.last = Some(Answer::alone(n));
                        Some(format!("{n}"))
                    }
                }
            }
        }
    }
}

/// The lists of the seeds `first` to `first + count - 1`, of each kind.
pub fn write(first: u64, count: u64, kinds: &[What], w: impl Write) {
    let mut w = BufWriter::new(w);
    for seed in first..first + count {
        for k in kinds {
            for c in gen::call_list(seed, *k).cmds {
                writeln!(w, "{}", print(&c)).unwrap();
            }
        }
    }
}

/// The machine's answers to a script.
pub fn answer(script: impl BufRead, w: impl Write) {
    let mut run = Runner::default();
    let mut w = BufWriter::new(w);
    for line in script.lines() {
        if let Some(s) = run.exec(&parse(&line.unwrap())) {
            writeln!(w, "{s}").unwrap();
        }
    }
}
