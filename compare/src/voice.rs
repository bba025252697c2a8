//! Request No. 7: the nearest of the enrolled voices, written from the request.

/// What is answered: a voice by its index and the distance's bits, nobody, or a refusal.
#[derive(Clone, Copy, Debug, PartialEq)]
pub enum Nearest {
    Voice(usize, u32),
    Nobody,
    Refused(usize),
}

pub fn distance(a: &[f32], b: &[f32]) -> f32 {
    let mut sum = 0.0f32;
    for i in 0..a.len() {
        let x = a[i] - b[i];
        sum += x * x;
    }
    sum
}

pub fn nearest(dim: usize, vector: &[f32], enrolled: &[Vec<f32>], limit: f32) -> Nearest {
    if enrolled.is_empty() || enrolled.len() > 32 {
        return Nearest::Refused(27);
    }
    if vector.len() != dim || enrolled.iter().any(|e| e.len() != dim) {
        return Nearest::Refused(28);
    }
    // -0.0 is not below 0
    if enrolled.iter().flatten().chain(vector).chain([&limit]).any(|x| !x.is_finite()) || limit < 0.0 {
        return Nearest::Refused(29);
    }
    let all: Vec<f32> = enrolled.iter().map(|e| distance(vector, e)).collect();
    // from +0.0 up the bits are ordered as the floats are; the first of equal ones is kept
    let index = (0..all.len()).min_by_key(|&i| all[i].to_bits()).unwrap();
    if all[index] <= limit {
        Nearest::Voice(index, all[index].to_bits())
    } else {
        Nearest::Nobody
    }
}
