//! The calls of generated lists as the translation of the original reads them (original/played.rt.in), and a sum of the original's answers to each list.
use crate::gen::{self, What};
use crate::machine::Options;
use crate::original::nan;
use crate::script::{canon32, canon64, Cmd, Runner};
use std::fs;
use std::path::Path;

/// Past so many bytes the next list begins a new file.
const FILE: usize = 1 << 24;

#[derive(Default)]
struct Words(Vec<u8>);

impl Words {
    fn word(&mut self, x: u32) {
        self.0.extend(x.to_le_bytes());
    }
    fn long(&mut self, x: u64) {
        self.0.extend(x.to_le_bytes());
    }
    fn text(&mut self, v: &[u8]) {
        self.long(v.len() as u64);
        self.0.extend(v);
    }
    fn floats(&mut self, v: &[f32]) {
        self.long(v.len() as u64);
        v.iter().for_each(|x| self.word(x.to_bits()));
    }
    fn doubles(&mut self, v: &[f64]) {
        self.long(v.len() as u64);
        v.iter().for_each(|x| self.long(x.to_bits()));
    }
    /// A table, `width` numbers for each row.
    fn rows(&mut self, n: usize, width: usize, v: &[f64]) {
        assert!(v.len() == n * width);
        self.long(n as u64);
        (0..n).for_each(|i| self.doubles(&v[i * width..(i + 1) * width]));
    }
    fn model(&mut self, info: &nan::Info) {
        let (o, t) = (&info.opts, info.tables());
        let (gmm, ext) = (&info.gmm, &info.extractor);
        for x in [o.left_context, o.right_context, o.cmn_window, o.global_frames, o.num_gselect, o.num_cg_iters as usize] {
            self.long(x as u64);
        }
        self.word(o.min_post.to_bits());
        self.word(o.posterior_scale.to_bits());
        self.long(o.max_count.to_bits());
        self.word(o.min_energy.to_bits());
        self.long(gmm.dim as u64);
        self.long(gmm.num_gauss as u64);
        self.floats(&t.gconsts);
        self.floats(&t.means_invvars_t);
        self.floats(&t.inv_vars_t);
        self.long(ext.feat_dim as u64);
        self.long(ext.ivector_dim as u64);
        self.long(ext.num_gauss as u64);
        self.long(ext.prior_offset.to_bits());
        self.rows(ext.num_gauss, ext.feat_dim * ext.ivector_dim, &t.sigma_inv_m);
        self.rows(ext.num_gauss, ext.ivector_dim * (ext.ivector_dim + 1) / 2, &t.u);
        self.floats(&t.lda_t);
        self.floats(&t.lda_offset);
        self.long(t.lda_offset.len() as u64);
        self.doubles(&t.global);
    }
}

/// The settings texts that give those options.
fn settings(o: &Options) -> [String; 2] {
    [
        format!("--left-context={}\n--right-context={}\n", o.left, o.right),
        format!("--cmn-window={}\n --cmn-min-energy= {}\n--global-frames={}\n", o.window, o.min_energy, o.global_frames),
    ]
}

/// As the translation sums what it answers.
#[derive(Default)]
struct Sum(u64);

impl Sum {
    fn add(&mut self, x: u64) {
        let mixed = (self.0 ^ x).wrapping_mul(0x9E37_79B9_7F4A_7C15);
        self.0 = mixed ^ (mixed >> 29);
    }
    fn doubles(&mut self, v: &[f64]) {
        v.iter().for_each(|x| self.add(canon64(*x)));
    }
    fn floats(&mut self, v: &[f32]) {
        v.iter().for_each(|x| self.add(u64::from(canon32(*x))));
    }
    fn model(&mut self, info: &nan::Info) {
        let (o, gmm, ext, t) = (&info.opts, &info.gmm, &info.extractor, info.tables());
        [o.left_context, o.right_context, o.cmn_window, o.global_frames].iter().for_each(|x| self.add(*x as u64));
        self.floats(&[o.min_energy]);
        self.add(gmm.dim as u64);
        self.add(gmm.num_gauss as u64);
        [&t.gconsts, &t.means_invvars_t, &t.inv_vars_t].iter().for_each(|v| self.floats(v));
        [ext.feat_dim, ext.ivector_dim, ext.num_gauss].iter().for_each(|x| self.add(*x as u64));
        self.doubles(&[ext.prior_offset]);
        self.doubles(&t.sigma_inv_m);
        self.doubles(&t.u);
        self.floats(&t.lda_t);
        self.floats(&t.lda_offset);
        self.doubles(&t.global);
    }
    fn stream(&mut self, s: &nan::Stream) {
        let (frames, rows) = s.x_held();
        self.add(frames);
        self.add(rows);
        self.doubles(&s.x_state());
        self.add(s.x_next() as u64);
        self.add(s.x_waiting() as u64);
        self.add(s.num_frames_ready() as u64);
    }
    fn silence(&mut self, t: &nan::Silence) {
        self.add(u64::from(t.active()));
        for (known, is_silence, weight) in t.x_table() {
            self.add(u64::from(known));
            self.add(u64::from(is_silence));
            self.add(u64::from(canon32(f32::from_bits(weight))));
        }
    }
}

#[derive(Default)]
struct Count {
    lists: u64,
    loads: u64,
    reported: u64,
    streams: u64,
    calls: u64,
    fetches: u64,
    silence: u64,
}

/// A load that is taken, or that the original reports as an error (refusals 2 and 3).
fn load(run: &Runner, w: &mut Words, sum: &mut Sum, n: &mut Count) {
    let refusal = run.last.as_ref().map_or(0, |a| a.refusal);
    if ![0, 2, 3].contains(&refusal) {
        return;
    }
    let o = run.opts.unwrap();
    let files = if refusal == 0 { crate::lists::original_bytes(run) } else { run.bytes.clone() };
    w.word(11);
    settings(&o).iter().for_each(|text| w.text(text.as_bytes()));
    files.iter().for_each(|file| w.text(file));
    n.loads += 1;
    match nan::open(&o, &files).expect("the original panics at a load that it is to take or to report") {
        Some(info) => sum.model(&info),
        None => {
            n.reported += 1;
            sum.add(1);
        }
    }
}

/// One list: what the translation is to play, and the original's sum. Calls that the machine refuses are left out, and what the original has not ends its part.
fn one(seed: u64, what: What, w: &mut Words, n: &mut Count) -> u64 {
    let mut run = Runner::default();
    let (mut stream, mut silence): (Option<nan::Owned>, Option<nan::Silence>) = (None, None);
    let mut sum = Sum::default();
    n.lists += 1;
    for c in gen::call_list(seed, what).cmds {
        run.exec(&c);
        let taken = run.last.as_ref().is_some_and(|a| a.refusal == 0);
        if matches!(c, Cmd::Model(_) | Cmd::Stream(..) | Cmd::Step(..) | Cmd::Round(_)) || taken && matches!(c, Cmd::Window(_)) {
            if stream.take().is_some() {
                w.word(0);
            }
            if matches!(c, Cmd::Round(_)) {
                silence = None;
            }
        }
        if let Cmd::Model(_) = c {
            load(&run, w, &mut sum, n);
        }
        if !taken {
            continue;
        }
        match &c {
            Cmd::Stream(..) => {
                let info = nan::open(&run.opts.unwrap(), &crate::lists::original_bytes(&run)).unwrap().unwrap();
                w.word(6);
                w.model(&info);
                let s = nan::Owned::new(info);
                sum.stream(&s.st);
                stream = Some(s);
                n.streams += 1;
            }
            Cmd::Push(_) | Cmd::Finish | Cmd::Change(..) | Cmd::Forget(_) | Cmd::Fetch(..) => {
                let Some(s) = stream.as_mut() else { continue };
                n.calls += 1;
                match &c {
                    Cmd::Push(x) => {
                        w.word(1);
                        w.floats(x);
                        s.st.push_frame(x);
                    }
                    Cmd::Finish => {
                        w.word(2);
                        s.st.set_input_finished();
                    }
                    Cmd::Change(f, x) => {
                        w.word(3);
                        w.long(f.len() as u64);
                        let deltas: Vec<(usize, f32)> = f.iter().zip(x).map(|(f, x)| (*f as usize, *x)).collect();
                        deltas.iter().for_each(|(f, x)| {
                            w.long(*f as u64);
                            w.word(x.to_bits());
                        });
                        s.st.update_frame_weights(&deltas);
                    }
                    Cmd::Forget(f) => {
                        w.word(4);
                        w.long(*f);
                        s.st.forget_before(*f as usize);
                    }
                    Cmd::Fetch(f, _) => {
                        n.fetches += 1;
                        w.word(5);
                        w.long(*f);
                        let v = s.fetch(*f).expect("the original panics at a fetch that is taken");
                        sum.floats(&v);
                    }
                    _ => unreachable!(),
                }
                sum.stream(&s.st);
            }
            Cmd::Table(_, weight, subsampling, phones) => {
                n.silence += 1;
                w.word(7);
                w.word(weight.to_bits());
                w.long(*subsampling);
                w.long(phones.len() as u64);
                phones.iter().for_each(|p| w.word(*p as u32));
                let t = nan::Silence::new(phones, *weight, *subsampling as usize);
                sum.silence(&t);
                silence = Some(t);
            }
            Cmd::Trace(decoded, phones, starts, ends) => {
                let Some(t) = silence.as_mut() else { continue };
                n.silence += 1;
                w.word(8);
                w.long(*decoded);
                w.long(phones.len() as u64);
                for i in 0..phones.len() {
                    w.word(phones[i] as u32);
                    w.long(starts[i]);
                    w.long(ends[i]);
                }
                t.compute_current_traceback(&nan::path(phones, starts, ends), *decoded as usize);
                sum.silence(t);
            }
            Cmd::Weigh(ready, first, ..) => {
                let Some(t) = silence.as_mut() else { continue };
                n.silence += 1;
                w.word(9);
                w.long(*ready);
                w.long(*first);
                for (frame, weight) in t.get_delta_weights(*ready as usize, *first as usize) {
                    sum.add(frame as u64);
                    sum.add(u64::from(canon32(weight)));
                }
                sum.silence(t);
            }
            _ => {}
        }
    }
    if stream.is_some() {
        w.word(0);
    }
    w.word(10);
    sum.0
}

/// Files 0000, 0001, .. with the calls of the lists, and beside each what the translation has to print, 0000.stdout ..
pub fn run(first: u64, count: u64, kinds: &[What], folder: &Path) {
    let (mut n, mut files) = (Count::default(), 0);
    let (mut words, mut sums) = (Words::default(), String::new());
    let mut lists = 0;
    fs::create_dir_all(folder).unwrap();
    for seed in first..first + count {
        for kind in kinds {
            let sum = one(seed, *kind, &mut words, &mut n);
            lists += 1;
            sums += &format!("{lists} {sum}\n");
            if words.0.len() > FILE || seed + 1 == first + count && Some(kind) == kinds.last() {
                words.word(0);
                fs::write(folder.join(format!("{files:04}")), &words.0).unwrap();
                fs::write(folder.join(format!("{files:04}.stdout")), &sums).unwrap();
                (words, sums, lists) = (Words::default(), String::new(), 0);
                files += 1;
            }
        }
    }
    println!(
        "lists {}  loads {} ({} reported)  streams {}  calls on them {} (fetches {})  silence calls {}  in {files} files",
        n.lists, n.loads, n.reported, n.streams, n.calls, n.fetches, n.silence
    );
}
