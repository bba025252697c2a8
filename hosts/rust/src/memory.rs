//! The memory that the library is lent.
use crate::Refusal;
use std::alloc::{alloc_zeroed, Layout};

/// What a room holds.
///
/// # Safety
/// A type with a size, and all bits 0 are a value of it.
pub(crate) unsafe trait Number {}
unsafe impl Number for bool {}
unsafe impl Number for u8 {}
unsafe impl Number for usize {}
unsafe impl Number for f32 {}
unsafe impl Number for f64 {}

/// So many zeros, or the refusal where no memory holds them. As with `vec!`, pages that are not used take no memory: a `resize` after `try_reserve` would write
/// all of them, and where more was promised than is there, that ends the process.
pub(crate) fn zeros<T: Number>(n: usize) -> Result<Vec<T>, Refusal> {
    let layout = Layout::array::<T>(n).map_err(|_| Refusal::NO_MEMORY)?;
    if n == 0 {
        return Ok(Vec::new());
    }
    // SAFETY: the layout has a size.
    let start = unsafe { alloc_zeroed(layout) }.cast::<T>();
    if start.is_null() {
        return Err(Refusal::NO_MEMORY);
    }
    // SAFETY: the global allocator's, with the layout of n numbers, each of them a zero.
    Ok(unsafe { Vec::from_raw_parts(start, n, n) })
}
