//! A silence table and the calls on it, with forged parts or to be timed.
use super::{DecoderFrame, InputFrame, SilenceCounts, SilenceWeighting, MORE};
use crate::machine::SAlter;
use shofrakin::sys as c;

#[derive(Clone)]
pub struct Silence {
    pub rec: SilenceWeighting,
    pub phones: Vec<i32>,
    pub known: Vec<bool>,
    pub is_silence: Vec<bool>,
    pub current_weight: Vec<f32>,
}

impl Silence {
    /// The refusal, the table of a call that is taken, and what is wrong.
    pub fn make(table: usize, weight: f32, sub: usize, phones: &[i32]) -> (u32, Option<Silence>, Option<String>) {
        let a = unsafe { c::shofrakin_new_silence_weighting(phones.as_ptr(), phones.len(), weight, sub, table) };
        let (known, is_silence) = (vec![false; table + MORE], vec![false; table + MORE]);
        let mut s = Silence { rec: a.silence, phones: phones.to_vec(), known, is_silence, current_weight: vec![0.0; table + MORE] };
        if a.refusal != 0 {
            let n = s.trace(0, &[], &[], &[], &[], 0).0;
            return (a.refusal as u32, None, (n != 10).then(|| "the record beside a refusal is taken".to_string()));
        }
        let want = !phones.is_empty() && weight != 1.0;
        let wrong = (unsafe { c::shofrakin_silence_active(&s.rec) } != want).then(|| format!("active is not {want}"));
        (0, Some(s), wrong)
    }

    /// The record and the three lent lengths with forged parts. A forged length is that of one room or of all, by `turn`.
    pub(super) fn forged(&self, al: &[SAlter], turn: usize) -> (SilenceWeighting, [usize; 3]) {
        let (mut r, mut l) = (self.rec, [self.rec.table; 3]);
        for a in al {
            match a {
                SAlter::Room(d) => {
                    for (k, n) in l.iter_mut().enumerate() {
                        if turn % 4 == 3 || turn % 4 == k {
                            *n = (*n as i64 + d).max(0) as usize;
                        }
                    }
                }
                SAlter::Len(n) => r.length.number = *n as usize,
                SAlter::Sub(n) => r.subsampling = *n as usize,
                SAlter::Weight(b) => r.silence_weight = f32::from_bits(*b),
                SAlter::Phones(n) => r.phones = *n as usize,
            }
        }
        for (n, v) in l.iter_mut().zip([self.known.len(), self.is_silence.len(), self.current_weight.len()]) {
            *n = (*n).min(v);
        }
        (r, l)
    }

    /// What is looked at for "untouched": the table, or in a large one the part in use and some more.
    fn look(&self) -> usize {
        let n = self.known.len();
        if n <= 4096 {
            n
        } else {
            (self.rec.length.number + 4096).min(n)
        }
    }
    fn part(&self) -> (Vec<bool>, Vec<bool>, Vec<u32>) {
        let n = self.look();
        (self.known[..n].to_vec(), self.is_silence[..n].to_vec(), self.current_weight[..n].iter().map(|x| x.to_bits()).collect())
    }

    fn after(
        &mut self,
        a: SilenceCounts,
        left: SilenceWeighting,
        given: SilenceWeighting,
        before: (Vec<bool>, Vec<bool>, Vec<u32>),
    ) -> Option<String> {
        let same = |p: &SilenceWeighting, q: &SilenceWeighting| {
            (p.subsampling, p.phones, p.table) == (q.subsampling, q.phones, q.table)
                && (p.silence_weight.to_bits() == q.silence_weight.to_bits() || p.silence_weight.is_nan() && q.silence_weight.is_nan())
        };
        if !same(&left, &given) {
            return Some("a silence call changed its settings".into());
        }
        if a.refusal != 0 {
            if left.length != given.length || self.part() != before {
                return Some("a refused silence call wrote".into());
            }
            return None;
        }
        self.rec = left;
        let n = self.rec.table;
        if self.known[n..].iter().any(|x| *x) || self.is_silence[n..].iter().any(|x| *x) || self.current_weight[n..].iter().any(|x| x.to_bits() != 0)
        {
            return Some("a silence call wrote past its table".into());
        }
        None
    }

    pub fn trace(&mut self, decoded: usize, ph: &[i32], st: &[usize], en: &[usize], al: &[SAlter], turn: usize) -> (u32, Option<String>) {
        let (given, l) = self.forged(al, turn);
        let before = self.part();
        let mut r = given;
        let a = unsafe {
            c::shofrakin_compute_current_traceback(
                &mut r,
                self.phones.as_ptr(),
                self.phones.len(),
                self.known.as_mut_ptr(),
                l[0],
                self.is_silence.as_mut_ptr(),
                l[1],
                self.current_weight.as_mut_ptr(),
                l[2],
                ph.as_ptr(),
                ph.len(),
                st.as_ptr(),
                st.len(),
                en.as_ptr(),
                en.len(),
                DecoderFrame { number: decoded },
            )
        };
        let mut wrong = self.after(a, r, given, before);
        if a.changes != 0 {
            wrong = Some("a traceback gives changes".into());
        }
        (a.refusal as u32, wrong)
    }

    /// The changes of a call that is taken, else the refusal.
    pub fn weigh(
        &mut self,
        ready: usize,
        first: usize,
        lf: usize,
        lw: usize,
        al: &[SAlter],
        turn: usize,
    ) -> (Result<Vec<(u64, f32)>, u32>, Option<String>) {
        let (given, l) = self.forged(al, turn);
        let before = self.part();
        let mut r = given;
        let (mut fs, mut ws) = (vec![0usize; lf + MORE], vec![0f32; lw + MORE]);
        let a = unsafe {
            c::shofrakin_get_delta_weights(
                &mut r,
                self.known.as_mut_ptr(),
                l[0],
                self.is_silence.as_mut_ptr(),
                l[1],
                self.current_weight.as_mut_ptr(),
                l[2],
                InputFrame { number: ready },
                InputFrame { number: first },
                fs.as_mut_ptr(),
                lf,
                ws.as_mut_ptr(),
                lw,
            )
        };
        let mut wrong = self.after(a, r, given, before);
        let n = a.changes;
        if n > lf
            || n > lw
            || fs[n..].iter().take(64).chain(&fs[lf..]).any(|x| *x != 0)
            || ws[n..].iter().take(64).chain(&ws[lw..]).any(|x| x.to_bits() != 0)
        {
            wrong = Some("weights were written past the answer's end".into());
        }
        if a.refusal != 0 {
            if n != 0 {
                wrong = Some("a refused call gives changes".into());
            }
            return (Err(a.refusal as u32), wrong);
        }
        (Ok((0..n).map(|i| (fs[i] as u64, ws[i])).collect()), wrong)
    }

    /// The two calls alone, to be timed.
    #[rustfmt::skip]
    pub fn plain_trace(&mut self, decoded: usize, ph: &[i32], st: &[usize], en: &[usize]) -> usize {
        let n = self.rec.table;
        let a = unsafe {
            c::shofrakin_compute_current_traceback(
                &mut self.rec, self.phones.as_ptr(), self.phones.len(),
                self.known.as_mut_ptr(), n, self.is_silence.as_mut_ptr(), n, self.current_weight.as_mut_ptr(), n,
                ph.as_ptr(), ph.len(), st.as_ptr(), st.len(), en.as_ptr(), en.len(), DecoderFrame { number: decoded },
            )
        };
        a.refusal
    }
    #[rustfmt::skip]
    pub fn plain_weigh(&mut self, ready: usize, first: usize, fs: &mut [usize], ws: &mut [f32]) -> usize {
        let n = self.rec.table;
        let a = unsafe {
            c::shofrakin_get_delta_weights(
                &mut self.rec, self.known.as_mut_ptr(), n, self.is_silence.as_mut_ptr(), n, self.current_weight.as_mut_ptr(), n,
                InputFrame { number: ready }, InputFrame { number: first }, fs.as_mut_ptr(), fs.len(), ws.as_mut_ptr(), ws.len(),
            )
        };
        a.changes
    }

    pub fn table(&self) -> Vec<(bool, bool, u32)> {
        (0..self.rec.length.number).map(|i| (self.known[i], self.is_silence[i], self.current_weight[i].to_bits())).collect()
    }
}
