//! `lines PAGES each|gathered FILE` runs a script as `mpheap run` does, on the independent heap: the same lines, replies, refusals and
//! limits, for `attach`, `detach`, `set`, `copy`, `add`, `sub`, `get`, `push`, `pop`, `alloc`, `load`, `store`, `base`, `size`, `gget`,
//! `gput`, and `gc` with `begin`, `roots`, `finish`, `collect` and `no`; any other line is a bad one. Each reply is a write of its own, as
//! there, or replies are gathered to 64 KB.
// The rows need more of a heap.
#![allow(dead_code)]
mod heap;
mod independent;
#[path = "lines/line.rs"]
mod line;

use heap::Heap;
use independent::Independent;
use independent::calls::Found;
use line::{Call, Event, Place};
use std::fs::File;
use std::io::{BufRead, BufReader, Write};
use std::os::fd::FromRawFd;
use std::process::ExitCode;

const GATHERED: usize = 1 << 16;
const MOST_STACK: usize = 256;
const MOST_WORDS: u64 = 65_536;

#[derive(Clone, Copy)]
enum Refusal {
    NoSlot = 1,
    Misaligned,
    NoObject,
    BadSize = 5,
    Full,
    StackFull,
    StackEmpty,
    WrongPhase,
}

const NAMES: [&str; 10] =
    ["", "NoSlot", "Misaligned", "NoObject", "", "BadSize", "Full", "StackFull", "StackEmpty", "WrongPhase"];

enum Reply {
    Done,
    Slot(usize),
    Word(u64),
}

struct Mutator {
    registers: [u64; 16],
    stack: Vec<u64>,
}

struct Run {
    heap: Independent,
    mutators: [Option<Mutator>; 16],
    globals: [u64; 64],
    collections: u64,
}

impl Run {
    fn open(pages: u32) -> Run {
        Run { heap: Independent::open(pages), mutators: [const { None }; 16], globals: [0; 64], collections: 0 }
    }

    fn attach(&mut self) -> Result<Reply, Refusal> {
        let slot = self.mutators.iter().position(Option::is_none).ok_or(Refusal::NoSlot)?;
        self.mutators[slot] = Some(Mutator { registers: [0; 16], stack: Vec::new() });
        Ok(Reply::Slot(slot))
    }

    fn mark_roots(&mut self) {
        for mutator in self.mutators.iter().flatten() {
            self.heap.mark_words(&mutator.registers);
            self.heap.mark_words(&mutator.stack);
        }
        self.heap.mark_words(&self.globals);
    }

    fn finish(&mut self) -> Result<Reply, Refusal> {
        self.mark_roots();
        self.collections = self.collections.wrapping_add(1);
        Ok(Reply::Word(self.heap.finish()))
    }

    fn call(&mut self, slot: usize, call: Call) -> Result<Reply, Refusal> {
        let mutator = self.mutators[slot].as_mut().ok_or(Refusal::NoSlot)?;
        let registers = &mut mutator.registers;
        match call {
            Call::Detach => self.mutators[slot] = None,
            Call::Set(a, number) => registers[a] = number,
            Call::Copy(a, b) => registers[a] = registers[b],
            Call::Add(a, b, number) => registers[a] = registers[b].wrapping_add(number),
            Call::Sub(a, b, c) => registers[a] = registers[b].wrapping_sub(registers[c]),
            Call::Get(a) => return Ok(Reply::Word(registers[a])),
            Call::Push(a) if mutator.stack.len() < MOST_STACK => mutator.stack.push(registers[a]),
            Call::Push(_) => return Err(Refusal::StackFull),
            Call::Pop(a) => return told(mutator.stack.pop().ok_or(Refusal::StackEmpty)?, &mut registers[a]),
            Call::Alloc(a, words, pointer_free) => registers[a] = allocate(&mut self.heap, words, pointer_free)?,
            Call::Load(a, place) => {
                // The word is an object's, so it is one of the heap's.
                let word = unsafe { *(find_word(&self.heap, registers, place)? as *const u64) };
                return told(word, &mut registers[a]);
            }
            Call::Store(place, a) => {
                let at = find_word(&self.heap, registers, place)?;
                self.heap.store(at, registers[a]);
            }
            Call::Base(a, b) => return told(find(&self.heap, registers[b])?.base, &mut registers[a]),
            Call::Size(a) => return Ok(Reply::Word(find(&self.heap, registers[a])?.words)),
            Call::GetGlobal(a, global) => return told(self.globals[global], &mut registers[a]),
            Call::PutGlobal(global, a) => self.globals[global] = registers[a],
        }
        Ok(Reply::Done)
    }

    fn answer(&mut self, event: Event) -> Result<Reply, Refusal> {
        match (event, self.heap.is_marking()) {
            (Event::Attach, _) => self.attach(),
            (Event::Mutator(slot, call), _) => self.call(slot, call),
            (Event::Begin, false) => {
                self.heap.begin_anew();
                Ok(Reply::Done)
            }
            (Event::Roots, true) => {
                self.mark_roots();
                Ok(Reply::Done)
            }
            (Event::Finish, true) => self.finish(),
            (Event::Collect, _) => {
                self.heap.begin_anew();
                self.finish()
            }
            (Event::No, _) => Ok(Reply::Word(self.collections)),
            _ => Err(Refusal::WrongPhase),
        }
    }

    fn print(&self, reply: Result<Reply, Refusal>, out: &mut Vec<u8>) -> std::io::Result<()> {
        match reply {
            Ok(Reply::Done) => out.write_all(b"ok\n"),
            Ok(Reply::Slot(slot)) => writeln!(out, "mutator {slot}"),
            Ok(Reply::Word(word)) if self.heap.has(word) => out.write_all(b"ptr\n"),
            Ok(Reply::Word(word)) => writeln!(out, "{word}"),
            Err(refusal) => writeln!(out, "refused {} {}", refusal as u8, NAMES[refusal as usize]),
        }
    }
}

// Puts a word into a register, and tells it.
fn told(word: u64, register: &mut u64) -> Result<Reply, Refusal> {
    *register = word;
    Ok(Reply::Word(word))
}

fn allocate(heap: &mut Independent, words: u64, pointer_free: bool) -> Result<u64, Refusal> {
    if words == 0 || words > MOST_WORDS {
        return Err(Refusal::BadSize);
    }
    match heap.allocate(words, pointer_free) {
        0 => Err(Refusal::Full),
        base => Ok(base),
    }
}

fn find(heap: &Independent, word: u64) -> Result<Found, Refusal> {
    heap.find(word).ok_or(Refusal::NoObject)
}

// The address of a word of an object.
fn find_word(heap: &Independent, registers: &[u64; 16], place: Place) -> Result<u64, Refusal> {
    let at = registers[place.register].wrapping_add(place.offset.wrapping_mul(8));
    if at % 8 != 0 {
        return Err(Refusal::Misaligned);
    }
    find(heap, at)?;
    Ok(at)
}

// Runs the lines, each answered before the next is read; the number of the bad one, if there is one.
fn run(pages: u32, gathers: bool, script: &mut impl BufRead, output: &mut File) -> std::io::Result<Option<u64>> {
    let (mut run, mut text, mut out) = (Run::open(pages), Vec::new(), Vec::with_capacity(2 * GATHERED));
    let mut bad = None;
    for number in 1.. {
        text.clear();
        if script.read_until(b'\n', &mut text)? == 0 {
            break;
        }
        let Some(event) = line::read(text.strip_suffix(b"\n").unwrap_or(&text)) else {
            bad = Some(number);
            break;
        };
        let reply = run.answer(event);
        run.print(reply, &mut out)?;
        if !gathers || out.len() >= GATHERED {
            output.write_all(&out)?;
            out.clear();
        }
    }
    output.write_all(&out)?;
    Ok(bad)
}

fn main() -> ExitCode {
    let words: Vec<String> = std::env::args().collect();
    let mut script = BufReader::new(File::open(&words[3]).expect("the script can be opened"));
    // Standard output, without the buffer of std's own.
    let mut output = unsafe { File::from_raw_fd(1) };
    let pages = words[1].parse().expect("a number of pages");
    match run(pages, words[2] == "gathered", &mut script, &mut output).expect("lines are read and replies written") {
        None => ExitCode::SUCCESS,
        Some(number) => {
            eprintln!("bad line {number}");
            ExitCode::from(2)
        }
    }
}
