//! The rooms of a stream, compared bit by bit, and past what is kept in them.
use super::{IvectorStream, Room, CANARY, CANARY32, CANARY64};

#[derive(Clone, Debug, PartialEq)]
pub struct Rooms {
    pub frames: Room<f32>,
    pub rows: Room<f64>,
    pub waiting_frames: Room<usize>,
    pub waiting_weights: Room<f32>,
    pub cmvn_stats: Room<f64>,
    pub linear: Room<f64>,
    pub quadratic: Room<f64>,
    pub current: Room<f64>,
    pub scratch: Room<f64>,
}

impl Rooms {
    pub(super) fn new(l: &[usize]) -> Rooms {
        Rooms {
            frames: Room::new(l[0], CANARY32),
            rows: Room::new(l[1], CANARY64),
            waiting_frames: Room::new(l[2], CANARY),
            waiting_weights: Room::new(l[3], CANARY32),
            cmvn_stats: Room::new(l[4], CANARY64),
            linear: Room::new(l[5], CANARY64),
            quadratic: Room::new(l[6], CANARY64),
            current: Room::new(l[7], CANARY64),
            scratch: Room::new(l[8], CANARY64),
        }
    }
}

pub(super) fn same32(a: &[f32], b: &[f32]) -> bool {
    a.iter().zip(b).all(|(x, y)| x.to_bits() == y.to_bits())
}
fn same64(a: &[f64], b: &[f64]) -> bool {
    a.iter().zip(b).all(|(x, y)| x.to_bits() == y.to_bits())
}

pub(super) fn same_rooms(a: &Rooms, b: &Rooms) -> bool {
    same32(&a.frames.all, &b.frames.all)
        && same64(&a.rows.all, &b.rows.all)
        && a.waiting_frames == b.waiting_frames
        && same32(&a.waiting_weights.all, &b.waiting_weights.all)
        && same64(&a.cmvn_stats.all, &b.cmvn_stats.all)
        && same64(&a.linear.all, &b.linear.all)
        && same64(&a.quadratic.all, &b.quadratic.all)
        && same64(&a.current.all, &b.current.all)
        && same64(&a.scratch.all, &b.scratch.all)
}

/// A room that is not as it was past what the stream keeps in it (scratch: past what is lent).
pub(super) fn past_end(z: &Rooms, r: &IvectorStream) -> Option<&'static str> {
    let d = r.info.dims;
    let s = d.ivector_dim;
    let whole = |n: usize| n / d.base_dim * d.base_dim;
    if z.frames.all[whole(z.frames.len)..].iter().any(|x| *x != CANARY32) {
        return Some("frames");
    }
    if z.rows.all[whole(z.rows.len)..].iter().any(|x| *x != CANARY64) {
        return Some("rows");
    }
    if z.waiting_frames.all[z.waiting_frames.len..].iter().any(|x| *x != CANARY) {
        return Some("waiting frames");
    }
    if z.waiting_weights.all[z.waiting_weights.len..].iter().any(|x| *x != CANARY32) {
        return Some("waiting weights");
    }
    for (room, n, name) in [
        (&z.cmvn_stats, d.base_dim + 1, "CMVN state"),
        (&z.linear, s, "linear"),
        (&z.quadratic, s * (s + 1) / 2, "quadratic"),
        (&z.current, s, "current"),
        (&z.scratch, z.scratch.len, "scratch"),
    ] {
        if room.all[n..].iter().any(|x| *x != CANARY64) {
            return Some(name);
        }
    }
    None
}
