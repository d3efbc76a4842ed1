//! A builder's state words. A linked call reads of them the counts and the words of open containers, which calls wrote before; so a fresh builder
//! writes no others.
use crate::WORDS;
use std::mem::MaybeUninit;

/// Where the containers' words begin, and how many each has; behind them stands a word for each, how many elements it has.
const CONTAINERS: usize = 9;
const OF_EACH: usize = 11;
const ELEMENTS: usize = CONTAINERS + 64 * OF_EACH;

/// The counts that are read here: used value bytes, and open containers.
const VALUE: usize = 0;
const OPEN: usize = 2;

/// The flag that each of them was written is not beside them: it would be made together with them, by zeros for all.
pub(crate) struct Words(MaybeUninit<[usize; WORDS]>);

impl Words {
    /// To be given to `variant_new`, which writes the counts, before all else.
    pub(crate) fn unwritten() -> Self {
        Words(MaybeUninit::uninit())
    }

    pub(crate) fn as_mut_ptr(&mut self) -> *mut [usize; WORDS] {
        self.0.as_mut_ptr()
    }

    pub(crate) fn value(&self) -> usize {
        self.at(VALUE)
    }

    /// How many marks are set in the innermost container, one being open.
    pub(crate) fn marks(&self) -> usize {
        self.at(CONTAINERS + OF_EACH * (self.open() - 1) + 10)
    }

    /// All of them, those of containers that are not open being 0 where they need not have been written.
    pub(crate) fn all(&self, whole: bool) -> [usize; WORDS] {
        let mut all = [0; WORDS];
        for (i, word) in all.iter_mut().enumerate().filter(|(i, _)| whole || self.in_use(*i)) {
            *word = self.at(i);
        }
        all
    }

    /// The same, to be changed: each was written then.
    pub(crate) fn all_mut(&mut self, whole: bool) -> &mut [usize; WORDS] {
        if !whole {
            self.0.write(self.all(false));
        }
        // SAFETY: each was written, here or before
        unsafe { self.0.assume_init_mut() }
    }

    fn open(&self) -> usize {
        self.at(OPEN)
    }

    /// One of the counts, or of an open container's words.
    fn in_use(&self, i: usize) -> bool {
        let container = if i < ELEMENTS { i.saturating_sub(CONTAINERS) / OF_EACH } else { i - ELEMENTS };
        i < CONTAINERS || container < self.open()
    }

    fn at(&self, i: usize) -> usize {
        assert!(i < WORDS);
        // SAFETY: it is one of the words, and was written: a count by `variant_new`, an open container's by the call that opened it, any by `all_mut`
        unsafe { self.0.as_ptr().cast::<usize>().add(i).read() }
    }
}
