//! The nearest voice.
use shofrakin::sys as c;

/// The library's nearest voice. The slices' rooms end where they do: nothing is written.
pub fn nearest_voice(dim: usize, vector: &[u32], count: usize, enrolled: &[u32], limit: f32) -> crate::voice::Nearest {
    use crate::voice::Nearest;
    let a = unsafe { c::shofrakin_nearest_voice(dim, vector.as_ptr(), vector.len(), count, enrolled.as_ptr(), enrolled.len(), limit) };
    let none = a.index == 0 && a.distance.to_bits() == 0;
    match (a.refusal, a.found) {
        (0, true) => Nearest::Voice(a.index, a.distance.to_bits()),
        (0, false) if none => Nearest::Nobody,
        (n, false) if none => Nearest::Refused(n),
        _ => Nearest::Refused(usize::MAX),
    }
}
