//! The bytes of numbers and lists, by docs/FORMAT.md.

/// The larger of the floor and the least width that holds n.
pub fn width(floor: usize, n: usize) -> usize {
    let least = (1..).find(|w| n >> (8 * w) == 0).unwrap();
    floor.max(least)
}

/// The numbers, each in so many bytes.
pub fn stored(width: usize, numbers: impl IntoIterator<Item = usize>) -> Vec<u8> {
    numbers.into_iter().flat_map(|n| n.to_le_bytes()[..width].to_vec()).collect()
}

/// A count of elements or fields.
pub fn count(n: usize) -> Vec<u8> {
    stored(if n > 255 { 4 } else { 1 }, [n])
}

/// A list of n equal elements.
pub fn list(floor: usize, n: usize, element: &[u8]) -> Vec<u8> {
    let w = width(floor, n * element.len());
    let first = 3 + 4 * (w - 1) + if n > 255 { 16 } else { 0 };
    let offsets = stored(w, (0..=n).map(|k| k * element.len()));
    [vec![first as u8], count(n), offsets, element.repeat(n)].concat()
}
