//! A core over pages in plain Rust, with the data and the calls of the proved one: each call looks at its slot first,
//! and is refused as the proved one is.
// A program uses a part of it.
#![allow(dead_code)]

use crate::plain_class::class_of;
use crate::plain_map::Kind;
use crate::plain_marker::Marker;
use crate::plain_space::Space;

const PAGES: usize = 4_096;
const SLOTS: usize = 16;
const REGISTERS: usize = 16;
const STACK_WORDS: usize = 256;
const GLOBALS: usize = 64;
const ROOT_WORDS: usize = SLOTS * (REGISTERS + STACK_WORDS) + GLOBALS;

/// Why a call is refused.
#[derive(Clone, Copy)]
pub enum Refusal {
    NoSlot,
    Misaligned,
    NoObject,
    NotBase,
    BadSize,
    Full,
    WrongPhase,
    NeedsFull,
}

/// The words of an attached mutator.
struct Mutator {
    registers: [u64; REGISTERS],
    stack: Vec<u64>,
}

/// A heap on one thread.
pub struct Core {
    mutators: [Option<Mutator>; SLOTS],
    globals: [u64; GLOBALS],
    space: Space,
    marker: Marker,
    is_marking: bool,
    needs_full: bool,
    count: u64,
    root_words: Vec<u64>,
}

impl Mutator {
    #[inline]
    fn address(&self, at: usize, offset: u64) -> Result<u64, Refusal> {
        let address = self.registers[at].wrapping_add(offset.wrapping_mul(8));
        if address % 8 == 0 { Ok(address) } else { Err(Refusal::Misaligned) }
    }
}

// The mutator of a slot. It borrows nothing but the mutators.
#[inline]
fn attached(mutators: &mut [Option<Mutator>; SLOTS], slot: usize) -> Result<&mut Mutator, Refusal> {
    mutators[slot].as_mut().ok_or(Refusal::NoSlot)
}

impl Core {
    /// A heap of the most pages with no mutator, and no object.
    pub fn new() -> Core {
        Core {
            mutators: [const { None }; SLOTS],
            globals: [0; GLOBALS],
            space: Space::new(PAGES),
            marker: Marker::new(PAGES),
            is_marking: false,
            needs_full: true,
            count: 0,
            root_words: Vec::with_capacity(ROOT_WORDS),
        }
    }

    /// A mutator comes, into the lowest slot that has none, with registers of 0 and an empty stack.
    #[inline]
    pub fn attach(&mut self) -> Result<usize, Refusal> {
        let slot = self.mutators.iter().position(Option::is_none).ok_or(Refusal::NoSlot)?;
        self.mutators[slot] = Some(Mutator { registers: [0; REGISTERS], stack: Vec::new() });
        Ok(slot)
    }

    /// The mutator of the slot goes.
    #[inline]
    pub fn detach(&mut self, slot: usize) -> Result<(), Refusal> {
        self.mutators[slot].take().map(|_| ()).ok_or(Refusal::NoSlot)
    }

    /// Puts a word into a register.
    #[inline]
    pub fn set(&mut self, slot: usize, register: usize, word: u64) -> Result<(), Refusal> {
        attached(&mut self.mutators, slot)?.registers[register] = word;
        Ok(())
    }

    /// The word of a register.
    #[inline]
    pub fn get(&self, slot: usize, register: usize) -> Result<u64, Refusal> {
        let mutator = self.mutators[slot].as_ref().ok_or(Refusal::NoSlot)?;
        Ok(mutator.registers[register])
    }

    /// Loads the word at the address of `at` and an offset in words into `into`.
    #[inline]
    pub fn load(&mut self, slot: usize, into: usize, at: usize, offset: u64) -> Result<u64, Refusal> {
        let mutator = attached(&mut self.mutators, slot)?;
        let address = mutator.address(at, offset)?;
        self.space.find(&self.marker, address).ok_or(Refusal::NoObject)?;
        let word = self.space.read(address);
        mutator.registers[into] = word;
        Ok(word)
    }

    /// Stores the word of `from` at the address of `at` and an offset in words.
    #[inline]
    pub fn store(&mut self, slot: usize, at: usize, offset: u64, from: usize) -> Result<(), Refusal> {
        let mutator = attached(&mut self.mutators, slot)?;
        let address = mutator.address(at, offset)?;
        self.space.find(&self.marker, address).ok_or(Refusal::NoObject)?;
        self.space.write(address, mutator.registers[from]);
        self.marker.written(address);
        Ok(())
    }

    /// The words of the object that a register's word points into.
    #[inline]
    pub fn size(&self, slot: usize, register: usize) -> Result<u64, Refusal> {
        let word = self.get(slot, register)?;
        let found = self.space.find(&self.marker, word).ok_or(Refusal::NoObject)?;
        Ok(u64::from(found.len))
    }

    /// Allocates an object of at least so many words, all 0, and puts its base into `into`.
    #[inline]
    pub fn alloc(&mut self, slot: usize, into: usize, words: u64, kind: Kind) -> Result<(), Refusal> {
        let mutator = attached(&mut self.mutators, slot)?;
        let placement = class_of(words).ok_or(Refusal::BadSize)?;
        let base = self.space.allocate(&self.marker, placement, kind).ok_or(Refusal::Full)?;
        if self.is_marking {
            self.marker.allocated(base);
        }
        mutator.registers[into] = base;
        Ok(())
    }

    /// Frees the object whose base a register has.
    #[inline]
    pub fn free(&mut self, slot: usize, register: usize) -> Result<(), Refusal> {
        let word = self.get(slot, register)?;
        let found = self.space.find(&self.marker, word).ok_or(Refusal::NoObject)?;
        if found.base != word {
            return Err(Refusal::NotBase);
        }
        self.space.release(found);
        self.marker.freed(word);
        self.needs_full = true;
        Ok(())
    }

    // Refuses a call that only a cycle has.
    #[inline]
    fn while_marking(&self) -> Result<(), Refusal> {
        if self.is_marking { Ok(()) } else { Err(Refusal::WrongPhase) }
    }

    // Writes all root words in their order.
    fn write_roots(&mut self) {
        self.root_words.clear();
        for mutator in self.mutators.iter().flatten() {
            self.root_words.extend_from_slice(&mutator.registers);
            self.root_words.extend_from_slice(&mutator.stack);
        }
        self.root_words.extend_from_slice(&self.globals);
    }

    /// Begins a cycle.
    pub fn begin(&mut self) -> Result<(), Refusal> {
        if self.is_marking {
            return Err(Refusal::WrongPhase);
        }
        self.space.sweep_all(&self.marker);
        self.marker.begin();
        self.is_marking = true;
        self.needs_full = false;
        Ok(())
    }

    /// Begins a cycle with the marks of the last one.
    pub fn begin_partial(&mut self) -> Result<(), Refusal> {
        if self.is_marking {
            return Err(Refusal::WrongPhase);
        }
        if self.needs_full {
            return Err(Refusal::NeedsFull);
        }
        self.space.sweep_all(&self.marker);
        self.marker.begin_partial();
        self.is_marking = true;
        Ok(())
    }

    /// Marks what root words read.
    pub fn roots(&mut self) -> Result<(), Refusal> {
        self.while_marking()?;
        self.write_roots();
        self.space.scan_roots(&mut self.marker, &self.root_words);
        Ok(())
    }

    /// Reads words of entries, at most so many, and answers how many.
    pub fn mark(&mut self, most: u64) -> Result<u64, Refusal> {
        self.while_marking()?;
        Ok(self.space.mark(&mut self.marker, most))
    }

    /// Reads the lowest dirty page again. Answers 1, or 0 where no page is dirty.
    pub fn retrace(&mut self) -> Result<u64, Refusal> {
        self.while_marking()?;
        Ok(u64::from(self.space.retrace(&mut self.marker)))
    }

    /// Ends the cycle, and answers how many objects went.
    pub fn finish(&mut self) -> Result<u64, Refusal> {
        self.while_marking()?;
        self.write_roots();
        let gone = self.space.finish(&mut self.marker, &self.root_words);
        self.is_marking = false;
        self.count = self.count.wrapping_add(1);
        Ok(gone)
    }

    /// Drops a cycle that is marking, and collects in full. Answers how many objects went.
    pub fn collect(&mut self) -> u64 {
        self.space.sweep_all(&self.marker);
        self.marker.begin();
        self.write_roots();
        let gone = self.space.collect(&mut self.marker, &self.root_words);
        self.is_marking = false;
        self.needs_full = false;
        self.count = self.count.wrapping_add(1);
        gone
    }

    /// Sweeps one page, if one is still to be swept. Answers whether one was.
    pub fn sweep(&mut self) -> bool {
        self.space.sweep(&self.marker)
    }
}
