use crate::builder::answer;
use crate::{sys, Refusal};

/// The shortest packed decimal of a number into the start of `out`; how many bytes. Two digits a byte, high half first, and in the last low
/// half C, or D below zero. `VariantBuilder::append_packed` reads it as the same number; 20 bytes hold every one.
///
/// The scale is asked and not written. A magnitude of more than 38 digits or a scale above 38 is refused with 7, then an output too short
/// with 14. Of `out` only what is yielded is written, and nothing by a refused call.
///
/// ```
/// let mut out = [9; 4];
/// assert_eq!(variant_writer::write_packed_decimal(-4125, 1, &mut out), Ok(3));
/// assert_eq!(out, [0x04, 0x12, 0x5d, 9]);
/// ```
pub fn write_packed_decimal(integer: i128, scale: u8, out: &mut [u8]) -> Result<usize, Refusal> {
    let (high, low, mut written) = ((integer >> 64) as i64, integer as u64, 0);
    // SAFETY: the pointers are those of mutable borrows, apart from each other
    answer(unsafe { sys::variant_write_packed_decimal(high, low, scale, out.as_mut_ptr(), out.len(), &mut written) })?;
    Ok(written)
}
