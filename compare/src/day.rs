//! One stream of a day's frames (100 a second), utterance by utterance, on the library and on the original Rust: forgets, silence
//! weights as changes, fetches. Held frames stay within their room, answers are equal, memory stays as it is.
use crate::gen::Rng;
use crate::machine::{model_needs, stream_needs, DEFAULT};
use crate::model;
use crate::original::plain;
use crate::rattle::{self, Call};
use crate::resident;
use crate::script::{canon32, canon64};

/// Frames of the longest utterance, and the room for changes.
const UTTERANCE: u64 = 400;
const WAITING: usize = 2048;

fn us(v: &[u64]) -> Vec<usize> {
    v.iter().map(|x| *x as usize).collect()
}

/// Whether nothing differed.
pub fn run(frames: u64, seed: u64) -> bool {
    let mut r = Rng::new(seed);
    let o = DEFAULT;
    let z = model::SMALL;
    let files = model::files(&mut r, &o, z);
    let m = crate::machine::load(&o, &files[0], &files[1], &files[2], &files[3], &[0; 8]).expect("the machine loads the day's model");
    let lens = us(&model_needs(&m.dims, &m.opts));
    let (n, loaded, wrong) = rattle::load(&o, &files, &lens, rattle::load_scratch(z.feat, z.ivec), Some(&m));
    assert!(n == 0 && wrong.is_none(), "load: {n} {wrong:?}");
    // rooms as long as the rules ask, and no longer: each utterance ends with a fetch of its last ready frame, and the next begins with a forget
    let room = (UTTERANCE + o.left + o.right) as usize;
    let rows = room + o.window as usize;
    let mut l: Vec<usize> = vec![room * z.base, rows * z.base, WAITING, WAITING];
    l.extend(us(&stream_needs(&m.dims)));
    let (n, s, wrong) = rattle::Stream::fresh(&loaded.unwrap(), l[..].try_into().unwrap(), &[]);
    assert!(n == 0 && wrong.is_none(), "fresh stream: {n} {wrong:?}");
    let mut s = s.unwrap();
    let mut p = plain::Owned::new(plain::open(&o, &files).unwrap().unwrap());
    drop(m);

    let (phones, weight, sub) = ([1, 2], 0.01f32, 3usize);
    let table = UTTERANCE as usize;
    let (mut accepted, mut calls, mut fetches, mut changes, mut most, mut most_rows) = (0u64, 0u64, 0u64, 0u64, 0usize, 0usize);
    let (mut next_print, step) = (0u64, (frames / 10).max(1));
    let begun = std::time::Instant::now();
    let fail = |at: u64, msg: String| {
        println!("DIFFERENCE at frame {at}: {msg}");
        false
    };
    while accepted < frames {
        if accepted >= next_print {
            println!(
                "frames {accepted:9}  held at most {most} frames {most_rows} rows  calls {calls} fetches {fetches} changes {changes}  VmRSS {} kB  {:.0} s",
                resident(),
                begun.elapsed().as_secs_f64()
            );
            next_print += step;
        }
        // the first tenth is unweighted: no change call is taken yet
        let weighted = accepted >= frames / 10;
        let start = accepted;
        let a = s.call(Call::Forget(start as usize));
        p.st.forget_before(start as usize);
        calls += 1;
        let held = |a: &rattle::StreamAnswer, p: &plain::Owned| {
            (a.refusal, a.frames_held as u64, a.rows_held as u64) == (0, p.st.x_held().0, p.st.x_held().1)
        };
        if !held(&a, &p) {
            return fail(accepted, format!("forget: {a:?}, original {:?}", p.st.x_held()));
        }
        let (n, made, _) = rattle::Silence::make(table, weight, sub, &phones);
        assert!(n == 0);
        let mut silence = made.unwrap();
        let mut theirs = plain::Silence::new(&phones, weight, sub);
        let length = r.r(40, UTTERANCE).min(frames - accepted);
        let mut done = 0;
        while done < length {
            for _ in 0..r.r(5, 40).min(length - done) {
                let x = model::frame(&mut r, &o, z.base);
                let a = s.call(Call::Push(&x));
                p.st.push_frame(&x);
                calls += 1;
                accepted += 1;
                done += 1;
                if !held(&a, &p) {
                    return fail(accepted, format!("push: {a:?}, original {:?}", p.st.x_held()));
                }
                most = most.max(a.frames_held);
                most_rows = most_rows.max(a.rows_held);
            }
            let ready = s.ready();
            if ready != p.st.num_frames_ready() {
                return fail(accepted, "frames ready".into());
            }
            if ready as u64 <= start {
                continue;
            }
            if weighted {
                let decoded = (ready - start as usize) / sub;
                let (mut ph, mut st, mut en) = (vec![], vec![], vec![]);
                let mut at = 0;
                while at < decoded {
                    let n = r.r(1, 6) as usize;
                    ph.push(r.n(5) as i32);
                    st.push(at);
                    en.push(at + n);
                    at += n;
                }
                let (k, wrong) = silence.trace(decoded, &ph, &st, &en, &[], 0);
                let as64 = |v: &[usize]| v.iter().map(|x| *x as u64).collect::<Vec<_>>();
                theirs.compute_current_traceback(&plain::path(&ph, &as64(&st), &as64(&en)), decoded);
                let (w, wrong2) = silence.weigh(ready, start as usize, 1024, 1024, &[], 0);
                let v = theirs.get_delta_weights(ready, start as usize);
                let Ok(w) = w else { return fail(accepted, format!("weights: {w:?}")) };
                if k != 0
                    || wrong.is_some()
                    || wrong2.is_some()
                    || w.len() != v.len()
                    || w.iter().zip(&v).any(|(x, y)| x.0 as usize != y.0 || canon32(x.1) != canon32(y.1))
                {
                    return fail(accepted, format!("silence: {k} {wrong:?} {wrong2:?}"));
                }
                let (fs, ws): (Vec<usize>, Vec<f32>) = v.iter().copied().unzip();
                // at most 384 in one call; none is a change call too
                let mut a = s.call(Call::Change(&fs[..fs.len().min(384)], &ws[..ws.len().min(384)]));
                calls += 3;
                if fs.len() > 384 {
                    for (f, w) in fs[384..].chunks(384).zip(ws[384..].chunks(384)) {
                        if a.refusal == 0 {
                            a = s.call(Call::Change(f, w));
                            calls += 1;
                        }
                    }
                }
                p.st.update_frame_weights(&v);
                changes += v.len() as u64;
                if !held(&a, &p) || s.rec.waiting != p.st.x_waiting() {
                    return fail(accepted, format!("change: {a:?}"));
                }
            }
            let f = ready - 1;
            let Some(want) = p.fetch(f as u64) else { return fail(accepted, "the original panicked".into()) };
            calls += 1;
            fetches += 1;
            let mut out = vec![0u32; z.ivec];
            let a = s.call(Call::Fetch(f, &mut out));
            if !held(&a, &p)
                || out != want.iter().map(|x| canon32(*x)).collect::<Vec<_>>()
                || a.not_finite != want.iter().filter(|x| !x.is_finite()).count()
            {
                return fail(accepted, format!("fetch: {a:?} {out:x?}, original {want:?}"));
            }
            let same = s.state().iter().zip(p.st.x_state()).all(|(x, y)| canon64(*x) == canon64(y));
            if !same || s.next() != p.st.x_next() || s.rec.waiting != p.st.x_waiting() {
                return fail(accepted, "state after a fetch".into());
            }
        }
    }
    println!(
        "frames {accepted}  held at most {most} of {room} frames, {most_rows} of {rows} rows  calls {calls} fetches {fetches} changes {changes}  VmRSS {} kB  {:.0} s",
        resident(),
        begun.elapsed().as_secs_f64()
    );
    println!("differences 0");
    true
}
