//! Request 10: where a frame is held and its c0 is above `min_energy`, its normalised view is a function of the model, the options and the frames up to
//! it. Generated lists are played on the library, and its rooms are read after calls taken at random.
use crate::gen::{self, Rng, What};
use crate::machine::{model_needs, room_lens, stream_needs, Model};
use crate::rattle::{self, Call};
use crate::script::{canon32, Cmd, Runner};

/// The kinds of list that go in: those with many calls on a stream, none of them forged.
pub const KINDS: [What; 5] = [What::Calls, What::Wild, What::Long, What::Nan, What::Limit];

/// The function, written from the request: the view of the last of `frames`, which begin with frame 0.
pub fn view(m: &Model, window: u64, frames: &[Vec<f32>]) -> Vec<f32> {
    let x = &frames[frames.len() - 1];
    let gone = frames.len().saturating_sub(window as usize);
    let kept = (frames.len() - gone) as f64;
    let pool = m.global[x.len()];
    let scale = (kept < window as f64).then(|| (window as f64 - kept).min(m.opts.global_frames as f64) / pool);
    let count = scale.map_or(kept, |k| kept + k * pool);
    (0..x.len())
        .map(|d| {
            let sum = |n: usize| frames[..n].iter().fold(0f64, |a, f| a + f64::from(f[d]));
            let own = sum(frames.len()) - sum(gone);
            x[d] - (scale.map_or(own, |k| own + k * m.global[d]) / count) as f32
        })
        .collect()
}

/// The CMVN state that a fetch of frame t leaves, by the library's rings: `cmvn_state` of the contract of `cmvn_frame`.
fn state_after(s: &rattle::Stream, m: &Model, t: usize, old: &[f64]) -> Vec<f64> {
    let (o, b, window) = (&m.opts, m.dims.base, s.rec.window);
    let mut v = old.to_vec();
    if s.frame(t)[0] > o.min_energy {
        let lo = (t + 1).saturating_sub(window);
        v = s.row(t + 1).iter().zip(s.row(lo)).map(|(x, y)| x - y).collect();
        v.push((t + 1 - lo) as f64);
    }
    if v[b] < window as f64 {
        let scale = (window as f64 - v[b]).min(o.global_frames as f64) / m.global[b];
        for d in 0..=b {
            v[d] += scale * m.global[d];
        }
    }
    v
}

/// The view of frame t by the state that its fetch leaves: `cmvn_frame` of that contract.
fn view_by(s: &rattle::Stream, t: usize, state: &[f64]) -> Vec<u32> {
    let x = s.frame(t);
    (0..x.len()).map(|d| canon32(x[d] - (state[d] / state[x.len()]) as f32)).collect()
}

#[derive(Default)]
pub struct Tally {
    lists: u64,
    calls: u64,
    looks: u64,
    later: u64,
    left: u64,
    two: u64,
    quiet: u64,
    moved: u64,
    differences: u64,
    told: Vec<String>,
}

impl Tally {
    fn look(&mut self, same: bool, seed: u64, what: What, t: usize, how: &str) {
        if !same {
            self.differences += 1;
            if self.told.len() < 20 {
                self.told.push(format!("{what:?} seed {seed} frame {t}: {how}"));
            }
        }
    }
    pub fn merge(&mut self, o: Tally) {
        self.lists += o.lists;
        self.calls += o.calls;
        self.looks += o.looks;
        self.later += o.later;
        self.left += o.left;
        self.two += o.two;
        self.quiet += o.quiet;
        self.moved += o.moved;
        self.differences += o.differences;
        self.told.extend(o.told);
    }
    /// Whether nothing differed, and there was something to see.
    pub fn print(&self) -> bool {
        println!("lists {}  calls {}", self.lists, self.calls);
        println!("views of loud held frames, by the state there and by another {} (with later frames in {})", self.looks, self.later);
        println!("states that a fetch left at a loud frame {}  views in a second stream {}", self.left, self.two);
        println!("quiet held frames {}, of which one more look at the frame before moves the view {}", self.quiet, self.moved);
        println!("differences {}", self.differences);
        for d in &self.told {
            println!("  {d}");
        }
        self.differences == 0 && self.looks > 0 && self.left > 0 && self.two > 0 && self.moved > 0
    }
}

pub fn one(seed: u64, what: What, t: &mut Tally) {
    let mut r = Rng::new(seed ^ 0x10_0d);
    let mut run = Runner::default();
    let mut model: Option<rattle::Model> = None;
    // the list's stream, and a second one over the same model: larger rooms, the same frames, fetches of its own
    let mut both: Option<(rattle::Stream, rattle::Stream)> = None;
    let mut took: Vec<Vec<f32>> = vec![];
    t.lists += 1;
    for c in gen::call_list(seed, what).cmds {
        let us = |v: &[u64]| v.iter().map(|x| *x as usize).collect::<Vec<_>>();
        let (call, delta);
        let mut out = vec![];
        match &c {
            Cmd::Model(d) => {
                run.exec(&c);
                (model, both) = (None, None);
                if let Some((m, _)) = &run.model {
                    let lens = us(&room_lens(&model_needs(&m.dims, &m.opts), d));
                    model = rattle::load(&m.opts, &run.bytes, &lens, rattle::load_scratch(m.dims.feat, m.dims.ivec), Some(m)).1;
                }
                continue;
            }
            Cmd::Stream(l, d) => {
                (both, took) = (None, vec![]);
                if let (Some(m), Some((k, _))) = (&model, &run.model) {
                    let with = |l: [u64; 4]| {
                        let mut lens = us(&l);
                        lens.extend(us(&room_lens(&stream_needs(&k.dims), d)));
                        rattle::Stream::fresh(m, lens[..].try_into().unwrap(), &[]).1
                    };
                    let more = k.dims.base as u64 * 4000;
                    both = with(*l).zip(with([l[0] + more, l[1] + more, 0, 0]));
                }
                continue;
            }
            Cmd::Push(x) => call = Call::Push(x),
            Cmd::Finish => call = Call::Finish,
            Cmd::Change(f, w) => {
                delta = us(f);
                call = Call::Change(&delta, w)
            }
            Cmd::Forget(f) => call = Call::Forget(*f as usize),
            Cmd::Window(v) => call = Call::Window(*v as usize),
            Cmd::Fetch(f, n) => {
                out = vec![0; *n];
                call = Call::Fetch(*f as usize, &mut out)
            }
            _ => {
                run.exec(&c);
                continue;
            }
        }
        let (Some((s, second)), Some((m, _))) = (both.as_mut(), &run.model) else { continue };
        let (mut o, b) = (m.opts, m.dims.base);
        let before: Vec<u64> = s.waiting().iter().map(|x| x.0).collect();
        let (next, weighted) = (s.next(), s.rec.delta_weights_provided);
        t.calls += 1;
        if s.call(call).refusal != 0 {
            continue;
        }
        if let Cmd::Window(v) = &c {
            second.call(Call::Window(*v as usize));
        }
        // request 12: the window in force
        o.window = s.rec.window as u64;
        if let Cmd::Push(x) = &c {
            took.push(x.clone());
            second.call(Call::Push(x));
            if r.p(10) && second.ready() > 0 {
                let mut out = vec![0; m.dims.ivec];
                second.call(Call::Fetch(second.ready() - 1, &mut out));
            }
        }
        let of = |t: usize| view(m, o.window, &took[..=t]).iter().map(|x| canon32(*x)).collect::<Vec<_>>();
        // the state that a fetch leaves is that of the last frame which it looked at
        if let Cmd::Fetch(f, _) = &c {
            let last = if weighted { before.iter().copied().filter(|x| x <= f).max() } else { Some(*f) };
            if let (Some(last), true) = (last, *f as usize >= next) {
                let u = (last + o.right).min(s.rec.accepted as u64 - 1) as usize;
                if took[u][0] > o.min_energy {
                    t.left += 1;
                    let same = view_by(s, u, &s.rooms.cmvn_stats.all[..=b]) == of(u);
                    t.look(same, seed, what, u, "the state that a fetch left");
                }
            }
        }
        if !r.p(25) {
            continue;
        }
        let there = s.rooms.cmvn_stats.all[..=b].to_vec();
        let other: Vec<f64> = (0..=b).map(|_| r.n(2000) as f64 / 8.0).collect();
        for u in s.rec.mark..s.rec.accepted {
            let by = |state: &[f64]| view_by(s, u, &state_after(s, m, u, state));
            if took[u][0] > o.min_energy {
                t.looks += 1;
                t.later += u64::from(u + 1 < s.rec.accepted);
                let v = of(u);
                t.look(by(&there) == v, seed, what, u, "the view by the state there");
                t.look(by(&other) == v, seed, what, u, "the view by another state");
                if (second.rec.mark..second.rec.accepted).contains(&u) {
                    t.two += 1;
                    let w = view_by(second, u, &state_after(second, m, u, &second.rooms.cmvn_stats.all[..=b]));
                    t.look(w == v, seed, what, u, "the view in a second stream");
                }
            } else if u > s.rec.mark {
                t.quiet += 1;
                t.moved += u64::from(by(&there) != by(&state_after(s, m, u - 1, &there)));
            }
        }
    }
}

/// Seeds `first` to `first + count - 1`, one list each, the kinds in turn.
pub fn run(first: u64, count: u64) -> bool {
    let threads = std::env::var("THREADS").ok().and_then(|s| s.parse().ok()).unwrap_or(2u64);
    let hs: Vec<_> = (0..threads)
        .map(|i| {
            std::thread::spawn(move || {
                let mut t = Tally::default();
                for seed in (first + i..first + count).step_by(threads as usize) {
                    one(seed, KINDS[(seed % KINDS.len() as u64) as usize], &mut t);
                }
                t
            })
        })
        .collect();
    let mut t = Tally::default();
    for h in hs {
        t.merge(h.join().expect("thread"));
    }
    t.print()
}
