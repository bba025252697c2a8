use crate::{sys, Refusal};

/// Of the enrolled vectors as many as are taken, and one more, so that the call itself refuses too many.
pub(crate) fn at_most_taken<V>(enrolled: &[V]) -> &[V] {
    &enrolled[..enrolled.len().min(32 + 1)]
}

/// The nearest voice.
#[derive(Clone, Copy, Debug, PartialEq)]
pub struct Voice {
    /// Its place among the enrolled ones, from 0.
    pub index: usize,
    /// The sum of the squared differences.
    pub distance: f32,
}

/// Of 1 to 32 enrolled vectors the nearest to `vector`: the lowest index whose distance is least, where that is at most `limit`; else
/// nobody. All are of `dim` numbers, as a fetch gives them out. No root is taken, so the limit is one for a sum of squares. Refusals 27 to 29.
/// Squares of differences below some 2.6e-23 are 0, so that unlike vectors can be at distance 0.
pub fn nearest_voice<V: AsRef<[f32]>>(dim: usize, vector: &[f32], enrolled: &[V], limit: f32) -> Result<Option<Voice>, Refusal> {
    let enrolled = at_most_taken(enrolled);
    let all: Vec<f32> = enrolled.iter().flat_map(|v| v.as_ref()).copied().collect();
    // SAFETY: slices' pointers with their lengths; f32 and u32 have the same size and alignment.
    let a = unsafe { sys::shofrakin_nearest_voice(dim, vector.as_ptr().cast(), vector.len(), enrolled.len(), all.as_ptr().cast(), all.len(), limit) };
    // the call sees only the length of all vectors together
    if a.refusal != 27 && enrolled.iter().any(|v| v.as_ref().len() != dim) {
        return Err(Refusal::numbered(28));
    }
    Refusal::of(a.refusal)?;
    Ok(a.found.then_some(Voice { index: a.index, distance: a.distance }))
}
