//! A safe wrapper of `mpheap.h`: a heap, and mutators on it. Plain Rust, with no other crate.
//!
//! A `Heap` is closed when it is dropped. A `Mutator` borrows its heap, so none outlives it, and detaches when it is dropped;
//! all of them and the collector share one thread, since a `Heap` is neither `Send` nor `Sync`. Words are read and written by
//! calls alone, so whatever a program does, it is safe: an address that points into no object is a `Refusal`.

use std::cell::UnsafeCell;
use std::fmt;
use std::marker::PhantomData;
use std::ptr::null_mut;

macro_rules! refusals {
    ($($name:ident = $status:literal,)*) => {
        /// Why a call is refused. A refused call has changed nothing.
        #[derive(Clone, Copy, Debug, PartialEq, Eq)]
        pub enum Refusal {
            $($name = $status,)*
        }

        const REFUSALS: &[Refusal] = &[$(Refusal::$name,)*];
    };
}

refusals! {
    NoSlot = 1,
    Misaligned = 2,
    NoObject = 3,
    NotBase = 4,
    BadSize = 5,
    Full = 6,
    StackFull = 7,
    StackEmpty = 8,
    WrongPhase = 9,
    LinksFull = 10,
    NotPointerFree = 11,
    NeedsFull = 12,
    BadNumber = 100,
    BadPages = 101,
    NoMemory = 102,
}

impl fmt::Display for Refusal {
    fn fmt(&self, f: &mut fmt::Formatter<'_>) -> fmt::Result {
        write!(f, "refused {} {self:?}", *self as u32)
    }
}

impl std::error::Error for Refusal {}

pub type Result<T> = std::result::Result<T, Refusal>;

#[repr(C)]
struct Raw {
    core: *mut u8,
}

extern "C" {
    fn mpheap_open(pages: u32, heap: *mut Raw) -> u32;
    fn mpheap_close(heap: *mut Raw);
    fn mpheap_attach(heap: *mut Raw, slot: *mut u8) -> u32;
    fn mpheap_detach(heap: *mut Raw, slot: u8) -> u32;
    fn mpheap_set(heap: *mut Raw, slot: u8, into: u8, number: u64) -> u32;
    fn mpheap_get(heap: *mut Raw, slot: u8, from: u8, word: *mut u64) -> u32;
    fn mpheap_push(heap: *mut Raw, slot: u8, from: u8) -> u32;
    fn mpheap_pop(heap: *mut Raw, slot: u8, into: u8, word: *mut u64) -> u32;
    fn mpheap_alloc_base(heap: *mut Raw, slot: u8, into: u8, words: u64, base: *mut u64) -> u32;
    fn mpheap_load(heap: *mut Raw, slot: u8, into: u8, at: u8, offset: u64, word: *mut u64) -> u32;
    fn mpheap_store(heap: *mut Raw, slot: u8, at: u8, offset: u64, from: u8) -> u32;
    fn mpheap_begin(heap: *mut Raw) -> u32;
    fn mpheap_begin_partial(heap: *mut Raw) -> u32;
    fn mpheap_roots(heap: *mut Raw) -> u32;
    fn mpheap_mark(heap: *mut Raw, most: u64, count: *mut u64) -> u32;
    fn mpheap_finish(heap: *mut Raw, count: *mut u64) -> u32;
    fn mpheap_collect(heap: *mut Raw, count: *mut u64) -> u32;
}

// What a status says, of a call that answers no word.
fn done(status: u32) -> Result<()> {
    if status == 0 {
        return Ok(());
    }
    let refusal = REFUSALS.iter().find(|&&refusal| refusal as u32 == status);
    Err(*refusal.expect("a status of mpheap.h"))
}

// A call that answers a word through its last parameter.
fn told<T: Default>(call: impl FnOnce(&mut T) -> u32) -> Result<T> {
    let mut word = T::default();
    done(call(&mut word)).map(|()| word)
}

/// A heap of pages of 512 words.
pub struct Heap {
    raw: UnsafeCell<Raw>,
    on_its_thread: PhantomData<*mut u8>,
}

// In each `unsafe` block below the heap is open from its making to its drop, one thread alone has it, no call is inside of
// another one, and what a call writes through is a local number.
impl Heap {
    pub fn open(pages: u32) -> Result<Heap> {
        let mut raw = Raw { core: null_mut() };
        done(unsafe { mpheap_open(pages, &mut raw) })?;
        Ok(Heap { raw: UnsafeCell::new(raw), on_its_thread: PhantomData })
    }

    /// A mutator, with registers of 0 and an empty stack.
    pub fn attach(&self) -> Result<Mutator<'_>> {
        let slot = told(|slot| unsafe { mpheap_attach(self.raw.get(), slot) })?;
        Ok(Mutator { heap: self, slot })
    }

    /// Forgets exactly the objects that are not reached, and answers how many.
    pub fn collect(&self) -> Result<u64> {
        told(|gone| unsafe { mpheap_collect(self.raw.get(), gone) })
    }

    /// Begins a cycle that marks in small steps.
    pub fn begin(&self) -> Result<()> {
        done(unsafe { mpheap_begin(self.raw.get()) })?;
        done(unsafe { mpheap_roots(self.raw.get()) })
    }

    /// Begins a cycle that takes what the last one kept to be in use, and forgets of what was allocated since.
    pub fn begin_partial(&self) -> Result<()> {
        done(unsafe { mpheap_begin_partial(self.raw.get()) })?;
        done(unsafe { mpheap_roots(self.raw.get()) })
    }

    /// Reads at most so many words of marked objects, and answers how many.
    pub fn mark(&self, most: u64) -> Result<u64> {
        told(|count| unsafe { mpheap_mark(self.raw.get(), most, count) })
    }

    /// Ends the cycle, and answers how many objects are forgotten.
    pub fn finish(&self) -> Result<u64> {
        told(|gone| unsafe { mpheap_finish(self.raw.get(), gone) })
    }
}

impl Drop for Heap {
    fn drop(&mut self) {
        unsafe { mpheap_close(self.raw.get()) }
    }
}

/// One that allocates, loads and stores. Its registers, 0 to 15, and its stack are roots.
pub struct Mutator<'h> {
    heap: &'h Heap,
    slot: u8,
}

impl Mutator<'_> {
    fn raw(&self) -> *mut Raw {
        self.heap.raw.get()
    }

    pub fn set(&self, into: u8, number: u64) -> Result<()> {
        done(unsafe { mpheap_set(self.raw(), self.slot, into, number) })
    }

    pub fn get(&self, from: u8) -> Result<u64> {
        told(|word| unsafe { mpheap_get(self.raw(), self.slot, from, word) })
    }

    pub fn push(&self, from: u8) -> Result<()> {
        done(unsafe { mpheap_push(self.raw(), self.slot, from) })
    }

    pub fn pop(&self, into: u8) -> Result<u64> {
        told(|word| unsafe { mpheap_pop(self.raw(), self.slot, into, word) })
    }

    /// A new object of at least so many words of 0. Its base goes into a register, and is the answer too.
    pub fn alloc(&self, into: u8, words: u64) -> Result<u64> {
        told(|base| unsafe { mpheap_alloc_base(self.raw(), self.slot, into, words, base) })
    }

    /// The word so many words behind the address in a register.
    pub fn load(&self, into: u8, at: u8, offset: u64) -> Result<u64> {
        told(|word| unsafe { mpheap_load(self.raw(), self.slot, into, at, offset, word) })
    }

    pub fn store(&self, at: u8, offset: u64, from: u8) -> Result<()> {
        done(unsafe { mpheap_store(self.raw(), self.slot, at, offset, from) })
    }
}

impl Drop for Mutator<'_> {
    fn drop(&mut self) {
        unsafe { mpheap_detach(self.raw(), self.slot) };
    }
}
