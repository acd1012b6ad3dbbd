//! Stands in for the crate `bytemuck`: a list of lengths that are not 0, seen as a list of numbers.

use std::num::NonZeroU64;

/// A type whose values are values of `T`, byte for byte.
///
/// # Safety
/// Every value must have the layout of, and be, a valid value of `T`.
pub unsafe trait CastTo<T>: Sized {}

// `NonZeroU64` has the layout of `u64`, as its documentation promises.
unsafe impl CastTo<u64> for NonZeroU64 {}

pub fn must_cast_slice<A: CastTo<B>, B>(values: &[A]) -> &[B] {
    unsafe { std::slice::from_raw_parts(values.as_ptr().cast(), values.len()) }
}
