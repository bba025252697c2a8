//! Generated call lists on three sides at once: the library, the machine and the original Rust.
use crate::gen::{self, What};
use crate::machine::{model_needs, room_lens, stream_needs, EV};
use crate::original::{nan, plain, HERE};
use crate::rattle::{self, Call};
use crate::script::*;
use crate::trigger::Ended;
use std::collections::BTreeMap;

/// How many differences are told; the others are counted.
const TOLD: usize = 50;

#[derive(Default)]
pub struct Tally {
    pub lists: u64,
    pub calls: u64,
    /// Calls on the library: the lists', and loads with short scratch.
    pub library: u64,
    pub fetches: u64,
    pub updates: u64,
    pub finite: u64,
    pub against_plain: u64,
    pub left_domain: u64,
    pub states: u64,
    pub tables: u64,
    pub expects: u64,
    pub silence: u64,
    pub forged: u64,
    /// Models with a block of the other width (request 5).
    pub other_width: u64,
    pub differences: u64,
    pub told: Vec<String>,
    /// By call and number, as the machine answered.
    pub refusals: BTreeMap<(char, u32), u64>,
    /// (call, number, what the original did) -> times
    pub original: BTreeMap<(char, u32, &'static str), u64>,
    pub events: BTreeMap<&'static str, u64>,
}

impl Tally {
    fn diff(&mut self, seed: u64, what: What, i: usize, msg: String) {
        self.differences += 1;
        if self.told.len() < TOLD {
            self.told.push(format!("{} seed {seed} command {i}: {msg}", format!("{what:?}").to_lowercase()));
        }
    }
    pub fn merge(&mut self, o: Tally) {
        self.lists += o.lists;
        self.calls += o.calls;
        self.library += o.library;
        self.fetches += o.fetches;
        self.updates += o.updates;
        self.finite += o.finite;
        self.against_plain += o.against_plain;
        self.left_domain += o.left_domain;
        self.states += o.states;
        self.tables += o.tables;
        self.expects += o.expects;
        self.silence += o.silence;
        self.forged += o.forged;
        self.other_width += o.other_width;
        self.differences += o.differences;
        self.told.extend(o.told);
        for (k, v) in o.refusals {
            *self.refusals.entry(k).or_insert(0) += v;
        }
        for (k, v) in o.original {
            *self.original.entry(k).or_insert(0) += v;
        }
        for (k, v) in o.events {
            *self.events.entry(k).or_insert(0) += v;
        }
    }
    fn did(&mut self, c: char, n: u32, how: &'static str) {
        *self.original.entry((c, n, how)).or_insert(0) += 1;
    }

    pub fn print(&self) {
        println!("lists {}  calls {}  answered by the library {}  forged {}", self.lists, self.calls, self.library, self.forged);
        println!("models compared {} ({} with a block of the other width)  load numbers known beforehand {}", self.tables, self.other_width, self.expects);
        println!(
            "fetches {} (updating {}, finite {}), against the original as published {}, lists leaving its domain {}",
            self.fetches, self.updates, self.finite, self.against_plain, self.left_domain
        );
        println!("states compared after a taken call {}  silence calls {}", self.states, self.silence);
        println!("answers by refusal (0: taken) and call:");
        for n in 0..=30 {
            let v: Vec<(char, u64)> = self.refusals.iter().filter(|(k, _)| k.1 == n).map(|(k, v)| (k.0, *v)).collect();
            let sum: u64 = v.iter().map(|x| x.1).sum();
            println!("  {n:2} {sum:11}  {}", v.iter().map(|x| format!("{}={}", x.0, x.1)).collect::<Vec<_>>().join(" "));
        }
        if !HERE {
            println!("WITHOUT the original: its sources were not at hand, and the library is compared with the machine alone");
        }
        println!("what the original did where the answer was so:");
        for (k, v) in &self.original {
            println!("  {} {:2} {}: {v}", k.0, k.1, k.2);
        }
        println!("branches met:");
        for (k, v) in &self.events {
            println!("  {k}: {v}");
        }
        println!("differences {}", self.differences);
        for d in self.told.iter().take(TOLD) {
            println!("  {d}");
        }
    }
}

fn c64(v: &[f64]) -> Vec<u64> {
    v.iter().map(|x| canon64(*x)).collect()
}
fn c32(v: &[f32]) -> Vec<u32> {
    v.iter().map(|x| canon32(*x)).collect()
}
fn us(v: &[u64]) -> Vec<usize> {
    v.iter().map(|x| *x as usize).collect()
}

/// The model's files as the original reads them: each block at its own width.
pub fn original_bytes(run: &Runner) -> [Vec<u8>; 4] {
    let mut b = run.bytes.clone();
    if let Some((m, _)) = &run.model {
        for (f, p) in b.iter_mut().zip(&m.by_place) {
            if let Some(p) = p {
                f.clone_from(p);
            }
        }
    }
    b
}

pub fn one(seed: u64, what: What, t: &mut Tally) {
    // the generator runs the machine too: its branches are not counted
    let list = gen::call_list(seed, what);
    EV.with(|m| m.borrow_mut().clear());
    t.lists += 1;
    let mut run = Runner::default();
    let (mut pinfo, mut ninfo): (Option<plain::Info>, Option<nan::Info>) = (None, None);
    let (mut ps, mut ns): (Option<plain::Owned>, Option<nan::Owned>) = (None, None);
    let mut sil: Option<plain::Silence> = None;
    let mut rmodel: Option<rattle::Model> = None;
    let mut rs: Option<rattle::Stream> = None;
    let mut rsil: Option<rattle::Silence> = None;
    let mut expect = list.expect.iter().peekable();
    for (i, c) in list.cmds.iter().enumerate() {
        let (al, sal) = (run.al.clone(), run.sal.clone());
        let answer = run.exec(c);
        if answer.is_some() {
            t.calls += 1;
        }
        let n = run.last.as_ref().map_or(0, |a| a.refusal);
        if let Some(&&(k, want)) = expect.peek() {
            if k == i {
                expect.next();
                t.expects += 1;
                if want != n {
                    t.diff(seed, what, i, format!("load: {want} was to come, the machine says {n}"));
                }
            }
        }
        match c {
            Cmd::Model(d) => {
                let o = run.opts.unwrap();
                (ps, ns, rs) = (None, None, None);
                // the library: the lent lengths are those of the model where it loads with all room, else short rooms
                let all = crate::machine::load(&o, &run.bytes[0], &run.bytes[1], &run.bytes[2], &run.bytes[3], &[0; 8]);
                if let Err(w) = crate::memory::of_files(&o, &run.bytes, all.as_ref().map_err(|n| *n)) {
                    t.diff(seed, what, i, w);
                }
                let (lens, scratch) = match &all {
                    Ok(m) => (us(&room_lens(&model_needs(&m.dims, &m.opts), d)), rattle::load_scratch(m.dims.feat, m.dims.ivec)),
                    Err(_) => (vec![7; 8], 10_272),
                };
                let want = run.model.as_ref().map(|x| &x.0);
                let (rn, m, wrong) = rattle::load(&o, &run.bytes, &lens, scratch, want);
                t.library += 1;
                if rn != n {
                    t.diff(seed, what, i, format!("load: machine {n}, library {rn}"));
                }
                if let Some(w) = wrong {
                    t.diff(seed, what, i, w);
                }
                rmodel = m;
                // scratch of one number less
                if n == 0 && i % 3 == 0 {
                    t.library += 1;
                    let (rn, _, wrong) = rattle::load(&o, &run.bytes, &lens, scratch - 1, None);
                    if rn != 8 || wrong.is_some() {
                        t.diff(seed, what, i, format!("load with short scratch: {rn} {wrong:?}"));
                    }
                }
                // the original, whatever the machine says; absurd options are not run
                if n == 1 || !HERE {
                    t.did('m', n, "not run");
                    continue;
                }
                let mut a = plain::open(&o, &run.bytes);
                let mut how = match &a {
                    Ok(Some(_)) => "took it",
                    Ok(None) => "reported an error",
                    Err(_) => "panicked",
                };
                // request 5: a block of the other width, which the original reports; it gets the same numbers at its own widths
                let by_place = original_bytes(&run);
                if n == 0 && by_place != run.bytes {
                    t.did('m', n, if how == "reported an error" { "reported a block of the other width" } else { how });
                    if how != "reported an error" {
                        t.diff(seed, what, i, format!("a block has the other width, the original {how}"));
                    }
                    t.other_width += 1;
                    (a, how) = (plain::open(&o, &by_place), "took the numbers at its own widths");
                }
                t.did('m', n, how);
                if n == 0 {
                    match a {
                        Ok(Some(p)) => {
                            let m = &run.model.as_ref().unwrap().0;
                            let x = p.tables();
                            let same = c32(&x.gconsts) == c32(&m.gconsts)
                                && c32(&x.means_invvars_t) == c32(&m.means_t)
                                && c32(&x.inv_vars_t) == c32(&m.invvars_t)
                                && c64(&x.sigma_inv_m) == c64(&m.sim)
                                && c64(&x.u) == c64(&m.u)
                                && c32(&x.lda_t) == c32(&m.lda_t)
                                && c32(&x.lda_offset) == c32(&m.lda_offset)
                                && c64(&x.global) == c64(&m.global)
                                && p.extractor.prior_offset.to_bits() == m.prior.to_bits();
                            t.tables += 1;
                            if !same {
                                t.diff(seed, what, i, "model tables differ from the original's".into());
                            }
                            pinfo = Some(p);
                            ninfo = nan::open(&o, &by_place).unwrap();
                        }
                        _ => t.diff(seed, what, i, format!("machine takes the model, the original {how}")),
                    }
                } else if (n == 2 || n == 3) && how != "reported an error" {
                    t.diff(seed, what, i, format!("machine refuses {n}, the original {how}"));
                }
            }
            Cmd::Stream(l, d) => {
                (ps, ns, rs) = (None, None, None);
                if !al.is_empty() {
                    t.forged += 1;
                }
                if let Some(m) = &rmodel {
                    let dims = run.model.as_ref().unwrap().0.dims;
                    if let Err(w) = crate::memory::of_rooms(&dims, l[0] / dims.base as u64, l[1] / dims.base as u64, l[2]) {
                        t.diff(seed, what, i, w);
                    }
                    let mut lens: Vec<usize> = us(l);
                    lens.extend(us(&room_lens(&stream_needs(&dims), d)));
                    let (rn, s, wrong) = rattle::Stream::fresh(m, lens[..].try_into().unwrap(), &al);
                    t.library += 1;
                    if rn != n {
                        t.diff(seed, what, i, format!("fresh stream: machine {n}, library {rn}"));
                    }
                    if let Some(w) = wrong {
                        t.diff(seed, what, i, w);
                    }
                    rs = s;
                }
                if n == 0 {
                    if HERE {
                        let o = run.opts.unwrap();
                        let (p, q) = match (pinfo.take(), ninfo.take()) {
                            (Some(p), Some(q)) => (p, q),
                            _ => {
                                let b = original_bytes(&run);
                                (plain::open(&o, &b).unwrap().unwrap(), nan::open(&o, &b).unwrap().unwrap())
                            }
                        };
                        ps = Some(plain::Owned::new(p));
                        ns = Some(nan::Owned::new(q));
                    }
                    if rs.is_some() && !library_state(t, &run, rs.as_ref().unwrap(), seed, what, i) {
                        return;
                    }
                }
            }
            Cmd::Push(_) | Cmd::Finish | Cmd::Change(..) | Cmd::Forget(_) | Cmd::Window(_) | Cmd::Fetch(..) => {
                if !al.is_empty() {
                    t.forged += 1;
                    if n == 0 {
                        t.diff(seed, what, i, "a forged call is taken".into());
                    }
                }
                if let Some(s) = rs.as_mut() {
                    if !library_call(t, &run, s, c, &al, seed, what, i) {
                        return;
                    }
                }
                if !al.is_empty() {
                    continue;
                }
                let Some(q) = ns.as_mut() else { continue };
                if n != 0 {
                    if let Cmd::Fetch(f, _) = c {
                        if n == 21 || n == 22 {
                            let how = if q.fetch(*f).is_none() { "panicked" } else { "took it" };
                            t.did('v', n, how);
                            if how != "panicked" {
                                t.diff(seed, what, i, format!("fetch refused {n}, the original took it"));
                                return;
                            }
                        }
                    }
                    continue;
                }
                if let Cmd::Window(_) = c {
                    // the original has no such call: it is not compared from here on
                    (ps, ns) = (None, None);
                    continue;
                }
                let (mut out, mut plain_out) = (None, None);
                match c {
                    Cmd::Push(x) => {
                        q.st.push_frame(x);
                        if let Some(p) = ps.as_mut() {
                            p.st.push_frame(x);
                        }
                    }
                    Cmd::Finish => {
                        q.st.set_input_finished();
                        if let Some(p) = ps.as_mut() {
                            p.st.set_input_finished();
                        }
                    }
                    Cmd::Change(f, w) => {
                        let v: Vec<(usize, f32)> = f.iter().zip(w).map(|(a, b)| (*a as usize, *b)).collect();
                        q.st.update_frame_weights(&v);
                        if let Some(p) = ps.as_mut() {
                            p.st.update_frame_weights(&v);
                        }
                    }
                    Cmd::Forget(f) => {
                        q.st.forget_before(*f as usize);
                        if let Some(p) = ps.as_mut() {
                            p.st.forget_before(*f as usize);
                        }
                    }
                    Cmd::Fetch(f, _) => {
                        t.fetches += 1;
                        if *f as usize >= q.st.x_next() {
                            t.updates += 1;
                        }
                        match q.fetch(*f) {
                            Some(v) => out = Some(v),
                            None => {
                                t.diff(seed, what, i, "machine fetches, the original with NaN ordered panicked".into());
                                return;
                            }
                        }
                        if let Some(p) = ps.as_mut() {
                            match p.fetch(*f) {
                                Some(v) => {
                                    t.against_plain += 1;
                                    plain_out = Some(v);
                                }
                                None => {
                                    t.left_domain += 1;
                                    ps = None;
                                    t.did('v', 0, "panicked comparing NaN");
                                }
                            }
                        }
                    }
                    _ => unreachable!(),
                }
                let m = run.stream.as_ref().unwrap();
                let a = run.last.as_ref().unwrap();
                if let Some(v) = out {
                    let (bad, bits) = a.vector.as_ref().unwrap();
                    if *bad == 0 {
                        t.finite += 1;
                    }
                    if &c32(&v) != bits || *bad != v.iter().filter(|x| !x.is_finite()).count() as u64 {
                        t.diff(seed, what, i, format!("vector: machine {bits:x?} original (NaN ordered) {:x?}", c32(&v)));
                        return;
                    }
                }
                if let Some(v) = plain_out {
                    let (_, bits) = a.vector.as_ref().unwrap();
                    if &c32(&v) != bits {
                        t.diff(seed, what, i, format!("vector: machine {bits:x?} original {:x?}", c32(&v)));
                        return;
                    }
                }
                let held = a.held.unwrap();
                let mut check = |h: (u64, u64), st: Vec<f64>, nx: usize, wt: usize, rdy: usize, who: &str| {
                    if h != held {
                        t.diff(seed, what, i, format!("held: machine {held:?} {who} {h:?}"));
                    }
                    if c64(&st) != c64(&m.state()) || nx as u64 != m.next || wt != m.waiting.len() || rdy as u64 != m.ready() {
                        t.diff(seed, what, i, format!("state differs from {who}"));
                    }
                };
                check(q.st.x_held(), q.st.x_state(), q.st.x_next(), q.st.x_waiting(), q.st.num_frames_ready(), "the original (NaN ordered)");
                if let Some(p) = ps.as_ref() {
                    check(p.st.x_held(), p.st.x_state(), p.st.x_next(), p.st.x_waiting(), p.st.num_frames_ready(), "the original");
                }
            }
            Cmd::Step(n, x, b) => {
                // not followed on the original: each step is its plain call, and those are compared in the other kinds
                (ps, ns) = (None, None);
                t.forged += u64::from(!al.is_empty());
                let Some(s) = rs.as_mut() else { continue };
                let (mut block, mut out) = (b.clone(), vec![0xDEAD_BEEF_u32; *n]);
                t.library += 1;
                let (k, wrong) = s.stepped(&mut block, x, &mut out, &al);
                if let Some(w) = wrong {
                    t.diff(seed, what, i, w);
                    return;
                }
                let vector = run.last.as_ref().and_then(|a| a.vector.as_ref()).map_or(vec![0xDEAD_BEEF; *n], |v| v.1.clone());
                let (want, after) = match &run.last_block {
                    Some(b) => (0, b),
                    None => (10, b),
                };
                if k != want || &block != after || out != vector {
                    t.diff(seed, what, i, format!("step: machine {want} {after:x?} {vector:x?}, library {k} {block:x?} {out:x?}"));
                    return;
                }
                if !vector.is_empty() && run.last.as_ref().is_some_and(|a| a.vector.is_some()) {
                    t.fetches += 1;
                }
                if al.is_empty() && !library_state(t, &run, rs.as_ref().unwrap(), seed, what, i) {
                    return;
                }
            }
            Cmd::Round(u) => {
                // not followed on the original: each step is a plain call, and those are compared in the other kinds
                (ps, ns, sil) = (None, None, None);
                t.forged += u64::from(!al.is_empty() || !sal.is_empty());
                let (Some(s), Some(q)) = (rs.as_mut(), rsil.as_mut()) else { continue };
                t.library += 1;
                let (a, l, wrong) = rattle::rounded(s, q, u, &al, &sal);
                let m = run.last_round.as_ref().unwrap();
                let o = a.outcome;
                let ended = match (o.refusal, o.full, o.found) {
                    (0, true, true) => Ended::Voice(o.index, o.distance.to_bits()),
                    (0, true, false) => Ended::Nobody,
                    (0, false, _) => Ended::NoVector,
                    (n, ..) => Ended::Refused(n as u32, o.step as u32),
                };
                // past the changes that were given, and without a vector, the lists are as they were lent
                let given = m.changes.clone().unwrap_or_default();
                let k = given.len();
                let same = ended == m.ended
                    && a.changes == k
                    && given.iter().enumerate().all(|(i, x)| l.delta_frames[i] as u64 == x.0 && canon32(f32::from_bits(l.delta_weights[i])) == canon32(x.1))
                    && l.delta_weights[k..].iter().all(|x| *x == rattle::UNTOUCHED)
                    && match &m.vector {
                        Some(v) => l.out[..v.len()] == v[..] && l.out[v.len()..].iter().all(|x| *x == rattle::UNTOUCHED),
                        None => l.out.iter().all(|x| *x == rattle::UNTOUCHED),
                    };
                if !same || wrong.is_some() {
                    t.diff(seed, what, i, format!("round: machine {m:?}, library {o:?} {} {wrong:?}", a.changes));
                    return;
                }
                t.fetches += u64::from(m.vector.is_some());
                if !library_state(t, &run, rs.as_ref().unwrap(), seed, what, i) {
                    return;
                }
                silence_state(t, &run, None, rsil.as_ref().unwrap(), seed, what, i);
            }
            Cmd::Table(room, w, sub, ph) => {
                sil = (n == 0 && HERE).then(|| plain::Silence::new(ph, *w, *sub as usize));
                let (rn, s, wrong) = rattle::Silence::make(*room as usize, *w, *sub as usize, ph);
                t.library += 1;
                t.silence += 1;
                rsil = s;
                if rn != n || wrong.is_some() {
                    t.diff(seed, what, i, format!("silence table: machine {n}, library {rn} {wrong:?}"));
                    return;
                }
            }
            Cmd::Trace(k, p, st, en) => {
                t.silence += 1;
                t.library += 1;
                t.forged += u64::from(!sal.is_empty());
                let r = rsil.as_mut().unwrap();
                let (rn, wrong) = r.trace(*k as usize, p, &us(st), &us(en), &sal, i);
                if rn != n || wrong.is_some() {
                    t.diff(seed, what, i, format!("traceback: machine {n}, library {rn} {wrong:?}"));
                    return;
                }
                if let (0, Some(z)) = (n, sil.as_mut()) {
                    z.compute_current_traceback(&plain::path(p, st, en), *k as usize);
                }
                silence_state(t, &run, sil.as_ref(), rsil.as_ref().unwrap(), seed, what, i);
            }
            Cmd::Weigh(a, b, lf, lw) => {
                t.silence += 1;
                t.library += 1;
                t.forged += u64::from(!sal.is_empty());
                let r = rsil.as_mut().unwrap();
                let (got, wrong) = r.weigh(*a as usize, *b as usize, *lf as usize, *lw as usize, &sal, i);
                let same = match (&got, &run.last_weigh) {
                    (Ok(v), Some(m)) => v.len() == m.len() && v.iter().zip(m).all(|(x, y)| x.0 == y.0 && canon32(x.1) == canon32(y.1)),
                    (Err(k), None) => *k == n,
                    _ => false,
                };
                if !same || wrong.is_some() {
                    t.diff(seed, what, i, format!("weights: machine {n} {:?}, library {got:?} {wrong:?}", run.last_weigh));
                    return;
                }
                if let (0, Some(z)) = (n, sil.as_mut()) {
                    let v = z.get_delta_weights(*a as usize, *b as usize);
                    let m = run.last_weigh.as_ref().unwrap();
                    if v.len() != m.len() || v.iter().zip(m).any(|(x, y)| x.0 as u64 != y.0 || canon32(x.1) != canon32(y.1)) {
                        t.diff(seed, what, i, format!("weights: machine {m:?}, original {v:?}"));
                    }
                }
                silence_state(t, &run, sil.as_ref(), rsil.as_ref().unwrap(), seed, what, i);
            }
            _ => {}
        }
    }
    for (k, v) in run.refusals {
        *t.refusals.entry(k).or_insert(0) += v;
    }
    EV.with(|m| {
        for (k, v) in m.borrow().iter() {
            *t.events.entry(k).or_insert(0) += v;
        }
    });
}

/// The library's answer to a call against the machine's. False where the list ends here.
#[allow(clippy::too_many_arguments)]
fn library_call(t: &mut Tally, run: &Runner, s: &mut rattle::Stream, c: &Cmd, al: &[crate::machine::Alter], seed: u64, what: What, i: usize) -> bool {
    let want = run.last.as_ref().unwrap();
    let mut out: Vec<u32> = vec![];
    if let Cmd::Fetch(_, n) = c {
        out = vec![0xDEAD_BEEF; *n];
    }
    let delta: Vec<usize>;
    let call = match c {
        Cmd::Push(x) => Call::Push(x),
        Cmd::Finish => Call::Finish,
        Cmd::Change(f, w) => {
            delta = us(f);
            Call::Change(&delta, w)
        }
        Cmd::Forget(f) => Call::Forget(*f as usize),
        Cmd::Window(v) => Call::Window(*v as usize),
        Cmd::Fetch(f, _) => Call::Fetch(*f as usize, &mut out),
        _ => unreachable!(),
    };
    t.library += 1;
    let (a, wrong) = s.checked(call, al);
    if let Some(w) = wrong {
        t.diff(seed, what, i, w);
        return false;
    }
    let (held, bad) = (want.held.unwrap_or((0, 0)), want.vector.as_ref().map_or(0, |v| v.0));
    let got = (a.refusal as u32, (a.frames_held as u64, a.rows_held as u64), a.not_finite as u64, a.nan_likelihoods as u64);
    if got != (want.refusal, held, bad, want.nans) {
        t.diff(seed, what, i, format!("answer: machine {want:?}, library {a:?}"));
        return false;
    }
    if let Some((_, bits)) = &want.vector {
        if &out != bits {
            t.diff(seed, what, i, format!("vector: machine {bits:x?}, library {out:x?}"));
            return false;
        }
    }
    if want.refusal != 0 {
        return true;
    }
    library_state(t, run, s, seed, what, i)
}

/// All that the library's record and rooms hold against the machine's state.
fn library_state(t: &mut Tally, run: &Runner, s: &rattle::Stream, seed: u64, what: What, i: usize) -> bool {
    let m = run.stream.as_ref().unwrap();
    t.states += 1;
    let r = &s.rec;
    let mut wrong = vec![];
    let mut is = |ok: bool, name: &'static str| {
        if !ok {
            wrong.push(name);
        }
    };
    is(c64(&s.state()) == c64(&m.state()), "CMVN state, statistics or current vector");
    is(s.next() as u64 == m.next, "next");
    is(r.accepted as u64 == m.accepted(), "accepted");
    is(r.mark as u64 == m.mark, "mark");
    is(r.floor as u64 == m.floor, "floor");
    is(r.window as u64 == m.window && r.longest as u64 == m.longest, "windows");
    is(r.past_highest as i64 == m.highest + 1, "highest changed frame");
    is(r.delta_weights_provided == m.taken, "change call taken");
    is(r.input_finished == m.finished, "finished");
    is(s.ready() as u64 == m.ready(), "frames ready");
    is(s.ivector_dim() == m.model.dims.ivec, "i-vector dimension");
    is(s.waiting() == m.waiting.iter().map(|x| (x.0, x.1.to_bits())).collect::<Vec<_>>(), "waiting changes");
    let (acc, mark) = (m.accepted() as usize, m.mark as usize);
    is((mark..acc).all(|k| c32(s.frame(k)) == c32(&m.frames[k])), "frames held");
    let low = (mark + 1).saturating_sub(m.longest as usize);
    is((low..=acc).all(|k| c64(s.row(k)) == c64(&m.prefix[k])), "rows held");
    if !wrong.is_empty() {
        t.diff(seed, what, i, format!("the library's state differs: {}", wrong.join(", ")));
        return false;
    }
    true
}

fn silence_state(t: &mut Tally, run: &Runner, z: Option<&plain::Silence>, r: &rattle::Silence, seed: u64, what: What, i: usize) {
    let canon = |v: Vec<(bool, bool, u32)>| v.into_iter().map(|e| (e.0, e.1, canon32(f32::from_bits(e.2)))).collect::<Vec<_>>();
    let m: Vec<(bool, bool, u32)> = canon(run.sil.as_ref().unwrap().table.iter().map(|e| (e.0, e.1, e.2.to_bits())).collect());
    if z.is_some_and(|z| m != canon(z.x_table())) {
        t.diff(seed, what, i, "silence table: the original's differs".into());
    }
    if m != canon(r.table()) {
        t.diff(seed, what, i, "silence table: the library's differs".into());
    }
}
