//! The silence table: tracebacks, and the changes of weight that they give.
use super::{ev, Re};

#[derive(Clone, Debug)]
pub struct Silence {
    pub phones: Vec<i32>,
    pub weight: f32,
    pub sub: u64,
    pub room: u64,
    /// known, silence, current weight
    pub table: Vec<(bool, bool, f32)>,
}

fn settings_bad(phones: usize, weight: f32, sub: u64) -> bool {
    phones > 64 || !(1..=16).contains(&sub) || !weight.is_finite()
}

/// Forged parts of a silence record for one call: room delta, length, subsampling, weight bits, phones.
#[derive(Clone, Debug)]
pub enum SAlter {
    Room(i64),
    Len(u64),
    Sub(u64),
    Weight(u32),
    Phones(u64),
}

impl Silence {
    pub fn make(room: u64, phones: &[i32], weight: f32, sub: u64) -> Re<Silence> {
        if settings_bad(phones.len(), weight, sub) {
            return Err(9);
        }
        Ok(Silence { phones: phones.to_vec(), weight, sub, room, table: vec![] })
    }

    fn bad(&self, al: &[SAlter]) -> bool {
        let (mut lent, mut len, mut sub, mut w, mut ph) = (self.room, self.table.len() as u64, self.sub, self.weight, self.phones.len() as u64);
        for a in al {
            match a {
                SAlter::Room(d) => lent = (lent as i64 + d).max(0) as u64,
                SAlter::Len(n) => len = *n,
                SAlter::Sub(n) => sub = *n,
                SAlter::Weight(b) => w = f32::from_bits(*b),
                SAlter::Phones(n) => ph = *n,
            }
        }
        lent != self.room || settings_bad(ph as usize, w, sub) || len > lent
    }

    fn cap(&self) -> u64 {
        self.room.min(1_000_000)
    }

    pub fn trace(&mut self, decoded: u64, ph: &[i32], st: &[u64], en: &[u64], al: &[SAlter]) -> u32 {
        if self.bad(al) {
            return 10;
        }
        if decoded > self.cap() {
            return 23;
        }
        if ph.len() != st.len() || ph.len() != en.len() {
            return 24;
        }
        while (self.table.len() as u64) < decoded {
            self.table.push((false, false, 0.0));
        }
        for i in 0..ph.len() {
            let sil = self.phones.iter().any(|&p| p == ph[i]);
            let mut f = st[i];
            while f < en[i] && f < decoded {
                let e = &mut self.table[f as usize];
                e.0 = true;
                e.1 = sil;
                f += 1;
            }
        }
        0
    }

    pub fn weigh(&mut self, ready: u64, first: u64, room_f: u64, room_w: u64, al: &[SAlter]) -> Result<Vec<(u64, f32)>, u32> {
        if self.bad(al) {
            return Err(10);
        }
        if ready > 1_000_000_000 || first > 1_000_000_000 {
            return Err(23);
        }
        if ready <= first {
            return Ok(vec![]);
        }
        let n = ready - first;
        let wanted = n / self.sub + u64::from(n % self.sub != 0);
        if wanted > self.cap() {
            return Err(23);
        }
        let old = self.table.len();
        let mut t = self.table.clone();
        while (t.len() as u64) < wanted {
            t.push((false, false, 0.0));
        }
        let begin = if old > 100 { old - 100 } else { 0 };
        let mut out = vec![];
        let mut prev = if begin == 0 { self.weight } else { t[begin - 1].2 };
        let blind = !t[begin].0;
        if blind {
            ev("silence: begins unknown");
        }
        for f in begin..t.len() {
            let new = if blind || !t[f].0 {
                prev
            } else if t[f].1 {
                self.weight
            } else {
                1.0
            };
            prev = new;
            let diff = new - t[f].2;
            t[f].2 = new;
            if diff != 0.0 || f + 1 == t.len() {
                for i in 0..self.sub {
                    out.push((first + f as u64 * self.sub + i, diff));
                }
            }
        }
        if room_f < out.len() as u64 || room_w < out.len() as u64 {
            return Err(24);
        }
        self.table = t;
        Ok(out)
    }
}
