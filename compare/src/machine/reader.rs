//! The bytes of a model file: tokens, blocks of numbers of either width, and the refusals of what is not there or has another form.
use super::{ev, Re};

/// A file as it is read, and the same model with each block at the width that the original reads there.
pub(super) struct Rd<'a> {
    b: &'a [u8],
    at: usize,
    pub(super) by_place: Vec<u8>,
    /// some block has the other width (request 5)
    other: bool,
}

impl<'a> Rd<'a> {
    pub(super) fn new(b: &'a [u8]) -> Self {
        Rd { b, at: 0, by_place: vec![], other: false }
    }
    fn left(&self) -> usize {
        self.b.len() - self.at
    }
    pub(super) fn mark(&mut self) -> Re<()> {
        if self.left() < 2 {
            return Err(2);
        }
        if self.b[self.at] != 0 || self.b[self.at + 1] != b'B' {
            return Err(3);
        }
        self.at += 2;
        self.by_place.extend(b"\0B");
        Ok(())
    }
    fn word(&mut self) -> Re<&'a [u8]> {
        let blank = |c: u8| c == 32 || c == 10 || c == 9;
        while self.left() > 0 && blank(self.b[self.at]) {
            self.at += 1;
        }
        let from = self.at;
        while self.left() > 0 && !blank(self.b[self.at]) {
            self.at += 1;
        }
        if self.left() == 0 {
            return Err(2);
        }
        let t = &self.b[from..self.at];
        self.at += 1;
        Ok(t)
    }
    pub(super) fn token(&mut self) -> Re<&'a [u8]> {
        let t = self.word()?;
        self.by_place.extend(t);
        self.by_place.push(b' ');
        Ok(t)
    }
    pub(super) fn want(&mut self, t: &str) -> Re<()> {
        if self.token()? == t.as_bytes() {
            Ok(())
        } else {
            Err(3)
        }
    }
    /// A block's tag, F or D and the letter of its kind: the bytes of a number. `own`: the width that the original reads there.
    pub(super) fn block(&mut self, kind: u8, own: usize) -> Re<usize> {
        let width = match self.word()? {
            [b'F', k] if *k == kind => 4,
            [b'D', k] if *k == kind => 8,
            _ => return Err(3),
        };
        self.by_place.extend([if own == 4 { b'F' } else { b'D' }, kind, b' ']);
        self.differs(width, own);
        Ok(width)
    }
    pub(super) fn differs(&mut self, width: usize, own: usize) {
        if width != own {
            ev(if own == 4 { "block of f64 where f32 are kept" } else { "block of f32 where f64 are kept" });
            self.other = true;
        }
    }
    fn sized(&mut self, n: usize) -> Re<&'a [u8]> {
        if self.left() == 0 {
            return Err(2);
        }
        if self.b[self.at] as usize != n {
            return Err(3);
        }
        self.at += 1;
        self.extent(n as u64)
    }
    pub(super) fn extent(&mut self, n: u64) -> Re<&'a [u8]> {
        if (self.left() as u64) < n {
            return Err(2);
        }
        let s = &self.b[self.at..self.at + n as usize];
        self.at += n as usize;
        Ok(s)
    }
    pub(super) fn dim(&mut self, lo: i32, hi: i32) -> Re<usize> {
        let s = self.sized(4)?;
        let n = i32::from_le_bytes([s[0], s[1], s[2], s[3]]);
        if n < lo || n > hi {
            return Err(4);
        }
        self.by_place.push(4);
        self.by_place.extend(s);
        Ok(n as usize)
    }
    pub(super) fn skip(&mut self, n: usize, width: usize, own: usize) -> Re<()> {
        self.extent((width * n) as u64)?;
        self.by_place.resize(self.by_place.len() + own * n, 0);
        Ok(())
    }
    /// Numbers for a table of f32: an f64 is narrowed, then judged.
    pub(super) fn f32s(&mut self, n: usize, width: usize, positive: bool) -> Re<Vec<f32>> {
        let s = self.extent((width * n) as u64)?;
        let mut v = Vec::new();
        for c in s.chunks_exact(width) {
            let x = if width == 4 {
                f32::from_le_bytes(c.try_into().unwrap())
            } else {
                let y = f64::from_le_bytes(c.try_into().unwrap());
                if f64::from(y as f32) != y {
                    ev("number that narrowing changes");
                }
                y as f32
            };
            if !x.is_finite() || positive && !(x > 0.0) {
                return Err(6);
            }
            self.by_place.extend(x.to_le_bytes());
            v.push(x);
        }
        Ok(v)
    }
    /// Numbers for a table of f64.
    pub(super) fn f64s(&mut self, n: usize, width: usize) -> Re<Vec<f64>> {
        let s = self.extent((width * n) as u64)?;
        let mut v = Vec::new();
        for c in s.chunks_exact(width) {
            let x = if width == 8 { f64::from_le_bytes(c.try_into().unwrap()) } else { f64::from(f32::from_le_bytes(c.try_into().unwrap())) };
            if !x.is_finite() {
                return Err(6);
            }
            self.by_place.extend(x.to_le_bytes());
            v.push(x);
        }
        Ok(v)
    }
    /// The model at the original's widths, where some block has the other one.
    pub(super) fn rewritten(self) -> Option<Vec<u8>> {
        self.other.then_some(self.by_place)
    }
}
