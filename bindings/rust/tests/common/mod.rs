//! What more than one test needs.
use variant_writer::{MARKS, WORDS};

/// State words, a table of marks and small storages, to be lent to word calls.
pub struct Lent {
    pub words: [usize; WORDS],
    pub marks: [usize; MARKS],
    pub value: [u8; 9],
    pub text: [u8; 8],
    pub ends: [usize; 2],
    pub entries: [usize; 4],
    pub undo: [usize; 4],
}

pub const LENT: Lent =
    Lent { words: [0; WORDS], marks: [9; MARKS], value: [9; 9], text: [9; 8], ends: [9; 2], entries: [9; 4], undo: [9; 4] };

/// A word call over what is lent, without a name, then the arguments given.
macro_rules! call_unnamed {
    ($lent:ident . $call:ident ($($x:expr),*)) => {{
        let [value, text] = [&mut $lent.value[..], &mut $lent.text].map(|b| (b.as_mut_ptr(), b.len()));
        let [ends, entries, undo] = [&mut $lent.ends[..], &mut $lent.entries, &mut $lent.undo].map(|n| (n.as_mut_ptr(), n.len()));
        // SAFETY: each pointer is a borrow's, with its length
        unsafe {
            variant_writer::sys::$call(
                &mut $lent.words, &$lent.marks,
                value.0, value.1, text.0, text.1, ends.0, ends.1, entries.0, entries.1, undo.0, undo.1,
                false, [].as_ptr(), 0, $($x),*
            )
        }
    }};
}

pub(crate) use call_unnamed;
