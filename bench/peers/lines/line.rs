//! A line of a script, as docs/SCRIPTS.md has it: words with one space between two, numbers without sign and leading zeros.

const LONGEST: usize = 255;

/// A word so many words behind the address in a register.
pub struct Place {
    pub register: usize,
    pub offset: u64,
}

pub enum Call {
    Detach,
    Set(usize, u64),
    Copy(usize, usize),
    Add(usize, usize, u64),
    Sub(usize, usize, usize),
    Get(usize),
    Push(usize),
    Pop(usize),
    /// Register, words, and whether it is pointer-free.
    Alloc(usize, u64, bool),
    Load(usize, Place),
    Store(Place, usize),
    Base(usize, usize),
    Size(usize),
    GetGlobal(usize, usize),
    PutGlobal(usize, usize),
}

pub enum Event {
    Attach,
    Mutator(usize, Call),
    Begin,
    Roots,
    Finish,
    Collect,
    No,
}

struct Words<'a>(std::slice::Split<'a, u8, fn(&u8) -> bool>);

impl<'a> Words<'a> {
    fn next(&mut self) -> Option<&'a [u8]> {
        self.0.next()
    }

    fn number(&mut self) -> Option<u64> {
        let word = self.next()?;
        if word.is_empty() || word.len() > 1 && word[0] == b'0' {
            return None;
        }
        let mut number: u64 = 0;
        for byte in word {
            let digit = byte.wrapping_sub(b'0');
            if digit > 9 {
                return None;
            }
            number = number.checked_mul(10)?.checked_add(u64::from(digit))?;
        }
        Some(number)
    }

    fn below(&mut self, bound: u64) -> Option<usize> {
        self.number().filter(|number| *number < bound).map(|number| number as usize)
    }

    fn register(&mut self) -> Option<usize> {
        self.below(16)
    }

    fn place(&mut self) -> Option<Place> {
        Some(Place { register: self.register()?, offset: self.number()? })
    }

    fn is_pointer_free(&mut self) -> Option<bool> {
        match self.next()? {
            b"normal" => Some(false),
            b"atomic" => Some(true),
            _ => None,
        }
    }

    fn call(&mut self) -> Option<Call> {
        Some(match self.next()? {
            b"detach" => Call::Detach,
            b"set" => Call::Set(self.register()?, self.number()?),
            b"copy" => Call::Copy(self.register()?, self.register()?),
            b"add" => Call::Add(self.register()?, self.register()?, self.number()?),
            b"sub" => Call::Sub(self.register()?, self.register()?, self.register()?),
            b"get" => Call::Get(self.register()?),
            b"push" => Call::Push(self.register()?),
            b"pop" => Call::Pop(self.register()?),
            b"alloc" => Call::Alloc(self.register()?, self.number()?, self.is_pointer_free()?),
            b"load" => Call::Load(self.register()?, self.place()?),
            b"store" => Call::Store(self.place()?, self.register()?),
            b"base" => Call::Base(self.register()?, self.register()?),
            b"size" => Call::Size(self.register()?),
            b"gget" => Call::GetGlobal(self.register()?, self.below(64)?),
            b"gput" => Call::PutGlobal(self.below(64)?, self.register()?),
            _ => return None,
        })
    }

    fn collector(&mut self) -> Option<Event> {
        Some(match self.next()? {
            b"begin" => Event::Begin,
            b"roots" => Event::Roots,
            b"finish" => Event::Finish,
            b"collect" => Event::Collect,
            b"no" => Event::No,
            _ => return None,
        })
    }
}

/// What a line without its newline says; none if it is a bad one.
pub fn read(line: &[u8]) -> Option<Event> {
    if line.len() > LONGEST {
        return None;
    }
    let mut words = Words(line.split(|byte| *byte == b' '));
    let event = match line {
        b"attach" => {
            words.next();
            Event::Attach
        }
        _ if line.starts_with(b"gc ") => {
            words.next();
            words.collector()?
        }
        _ => Event::Mutator(words.below(16)?, words.call()?),
    };
    match words.next() {
        None => Some(event),
        Some(_) => None,
    }
}
