use crate::builder::answer;
use crate::{sys, Refusal};

/// Every value of 1, 2 or 3 bytes that is read over the dictionary 01 00 00, each once, ascending by bytes, as a batch file at the start of
/// `out`; how many bytes it has: 49, 4,993 or 1,173,831.
///
/// Any other length is refused with 26, then an output too short with 14. Of `out` only the file is written, and nothing by a refused call.
pub fn write_small_values(length: usize, out: &mut [u8]) -> Result<usize, Refusal> {
    let mut written = 0;
    // SAFETY: the pointers are those of mutable borrows, apart from each other
    answer(unsafe { sys::variant_write_small_values(length, out.as_mut_ptr(), out.len(), &mut written) })?;
    Ok(written)
}

/// The same as bytes of their own.
///
/// ```
/// use variant_writer::{small_values, BatchReader, Refusal};
///
/// let file = small_values(1)?;
/// let values: Vec<_> = BatchReader::new(&file)?.map(|record| record.map(|r| r.value)).collect::<Result<_, _>>()?;
/// assert_eq!(values, [[0], [1], [4], [8]]);
/// assert_eq!(small_values(4), Err(Refusal::BadLength));
/// # Ok::<(), Refusal>(())
/// ```
pub fn small_values(length: usize) -> Result<Vec<u8>, Refusal> {
    let mut file = vec![0; 1_173_831];
    let written = write_small_values(length, &mut file)?;
    file.truncate(written);
    Ok(file)
}
