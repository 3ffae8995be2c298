//! Values of records that are made when they are first asked for, and then kept.
use std::sync::OnceLock;

/// One value for each record of a kind. Threads may ask at the same time.
pub(crate) struct Slots<T>(OnceLock<Box<[OnceLock<T>]>>);

impl<T> Slots<T> {
    pub(crate) const fn new() -> Self {
        Slots(OnceLock::new())
    }

    /// The value of the record at an index, of so many.
    pub(crate) fn get(&self, count: usize, index: usize, make: impl FnOnce() -> T) -> &T {
        let all = self.0.get_or_init(|| (0..count).map(|_| OnceLock::new()).collect());
        all[index].get_or_init(make)
    }
}
