//! What the heaps beside each other have in common.

/// A heap for one thread whose objects are where their addresses say, with 16 roots. Words of an object are read by pointers.
pub trait Heap {
    /// Whether the marking can be had in steps.
    const HAS_CYCLES: bool;

    /// Whether a cycle can begin with the marks of the last one.
    const HAS_PARTIAL: bool;

    /// A heap of so many pages of 4,096 bytes.
    fn open(pages: u32) -> Self;

    /// The base of a new object of at least so many words, which the root then is; 0 where there is no room.
    fn alloc(&mut self, root: usize, words: u64, pointer_free: bool) -> u64;

    /// The bases of as many new objects, of which the root then is the last. There is room for them.
    fn alloc_many(&mut self, root: usize, words: u64, bases: &mut [u64]) {
        for base in bases {
            *base = self.alloc(root, words, false);
        }
    }

    fn set_root(&mut self, root: usize, word: u64);

    /// Writes a word of an object.
    fn store(&mut self, at: u64, word: u64);

    fn begin(&mut self);

    /// Marks all that roots lead to.
    fn mark_all(&mut self);

    /// Ends the cycle; how many objects went.
    fn finish(&mut self) -> u64;

    /// Sweeps what is left to sweep.
    fn sweep_all(&mut self);

    /// A whole collection at once; how many objects went, if the heap tells.
    fn collect(&mut self) -> u64;

    /// From now on stores are told, so that a cycle can begin with the marks of the last one.
    fn keep_marks(&mut self) {}

    /// A whole cycle at once that begins with the marks of the last one; how many objects went, if the heap tells.
    fn collect_new(&mut self) -> u64 {
        unreachable!()
    }
}
