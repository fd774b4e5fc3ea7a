"""A long random script that heaps of any layout answer alike: python3 bench/peers/script.py LINES prints it, the same each time.

It has `attach`, `detach`, `set`, `copy`, `add`, `sub`, `get`, `push`, `pop`, `alloc`, `load`, `store`, `base`, `size`, `gget`, `gput`, and
`gc` with `begin`, `roots`, `finish`, `collect` and `no`, some of them refused. What a heap's own order or places decide is left out:

- `gc mark`, `gc retrace` and `gc sweep` tell of an order, and so would a `gc finish` behind the first two: without them what it takes is
  what neither roots, nor what was marked or allocated since the cycle began, leads to at its end;
- a register is a number below a million on either side of 0, or an address inside what was asked for of one object, which the script
  follows; a difference of addresses is one within an object, and an `atomic` object holds no address;
- `free`, links and partial cycles, which the heap beside the proved one doesn't have."""
import sys

WORD_END = 1 << 64
NUMBERS_END = 1_000_000
MUTATORS, REGISTERS, GLOBALS, MOST_STACK = 3, 8, 64, 256
COLLECTOR = {"begin": 4, "roots": 4, "finish": 4, "collect": 1, "no": 1}
CALLS = {
    "alloc": 18, "set": 4, "copy": 2, "add": 2, "sub": 1, "get": 1, "store": 8, "load": 6, "base": 3, "size": 2,
    "push": 3, "pop": 3, "gput": 2, "gget": 2, "detach": 0.05,
}


class Random:
    """The generator of rows.rs, so that the script depends on no version of Python."""

    def __init__(self):
        self.state = 1

    def below(self, bound):
        self.state = (self.state * 6_364_136_223_846_793_005 + 1_442_695_040_888_963_407) % WORD_END
        return (self.state >> 33) % bound

    def of(self, choices):
        return choices[self.below(len(choices))]

    def weighted(self, weights):
        left = self.below(int(100 * sum(weights.values())))
        for name, weight in weights.items():
            left -= int(100 * weight)
            if left < 0:
                return name


class Object:
    """What the script knows of an object: the words that were asked for, those that aren't 0, and whether the collector reads them."""

    def __init__(self, words, kind):
        self.words, self.contents, self.is_read = words, {}, kind == "normal"


def moved(word, change):
    """A number, or an address as (object, offset in bytes), moved; None where the script isn't to have it."""
    if isinstance(word, tuple):
        return (word[0], word[1] + change) if 0 <= word[1] + change < 8 * word[0].words else None
    number = (word + change) % WORD_END
    return number if number < NUMBERS_END or number > WORD_END - NUMBERS_END else None


class Script:
    """The lines, and what registers, stacks and globals hold behind them."""

    def __init__(self):
        self.random = Random()
        self.registers = [[0] * REGISTERS for _ in range(MUTATORS)]
        self.stacks = [[] for _ in range(MUTATORS)]
        self.globals = [0] * GLOBALS

    def put(self, mutator, register, word):
        self.registers[mutator][register] = word

    def place(self, word):
        """A number of words behind an address, so that the sum stays in its object, and the offset there; None behind a number."""
        if not isinstance(word, tuple):
            return self.random.below(4), None
        last = (8 * word[0].words - 1 - word[1]) // 8
        words = self.random.below(min(last, 3) + 1)
        return words, word[1] + 8 * words

    def alloc(self, m):
        a, draw = self.random.below(REGISTERS), self.random
        words = draw.of([30] * 30 + [1 + draw.below(40)] * 60 + [1 + draw.below(256)] * 8 + [257 + draw.below(2000), 0])
        kind = draw.of(["normal", "normal", "atomic"])
        if words:
            self.put(m, a, (Object(words, kind), 0))
        return a, words, kind

    def set(self, m):
        a, number = self.random.below(REGISTERS), self.random.below(100)
        number = self.random.of([number, WORD_END - 1 - number, 1000 * number])
        self.put(m, a, number)
        return a, number

    def copy(self, m):
        a, b = self.random.below(REGISTERS), self.random.below(REGISTERS)
        self.put(m, a, self.registers[m][b])
        return a, b

    def add(self, m):
        a, b, number = self.random.below(REGISTERS), self.random.below(REGISTERS), self.random.below(40)
        number *= self.random.of([1, 8, 8])
        if (word := moved(self.registers[m][b], number)) is None:
            return None
        self.put(m, a, word)
        return a, b, number

    def sub(self, m):
        a, b, c = (self.random.below(REGISTERS) for _ in range(3))
        one, other = self.registers[m][b], self.registers[m][c]
        if not isinstance(other, tuple):
            signed = other if other < NUMBERS_END else other - WORD_END
            word = moved(one, -signed)
        else:
            word = (one[1] - other[1]) % WORD_END if isinstance(one, tuple) and one[0] is other[0] else None
        if word is None:
            return None
        self.put(m, a, word)
        return a, b, c

    def get(self, m):
        return (self.random.below(REGISTERS),)

    size = get

    def base(self, m):
        a, b = self.random.below(REGISTERS), self.random.below(REGISTERS)
        if isinstance(word := self.registers[m][b], tuple):
            self.put(m, a, (word[0], 0))
        return a, b

    def store(self, m):
        a, b = self.random.below(REGISTERS), self.random.below(REGISTERS)
        offset, at = self.place(word := self.registers[m][a])
        stored = self.registers[m][b]
        if at is not None and at % 8 == 0:
            if isinstance(stored, tuple) and not word[0].is_read:
                return None
            word[0].contents[at] = stored
        return a, offset, b

    def load(self, m):
        a, b = self.random.below(REGISTERS), self.random.below(REGISTERS)
        offset, at = self.place(word := self.registers[m][b])
        if at is not None and at % 8 == 0:
            self.put(m, a, word[0].contents.get(at, 0))
        return a, b, offset

    def push(self, m):
        a = self.random.below(REGISTERS)
        if len(self.stacks[m]) < MOST_STACK:
            self.stacks[m].append(self.registers[m][a])
        return (a,)

    def pop(self, m):
        a = self.random.below(REGISTERS)
        if self.stacks[m]:
            self.put(m, a, self.stacks[m].pop())
        return (a,)

    def gput(self, m):
        g, a = self.random.below(GLOBALS), self.random.below(REGISTERS)
        self.globals[g] = self.registers[m][a]
        return g, a

    def gget(self, m):
        a, g = self.random.below(REGISTERS), self.random.below(GLOBALS)
        self.put(m, a, self.globals[g])
        return a, g

    def detach(self, m):
        """The slot is attached again by the next line."""
        self.registers[m], self.stacks[m] = [0] * REGISTERS, []
        return ()

    def turn(self):
        """The next lines: one, or two; none where what was drawn would leave what the heaps answer alike."""
        if self.random.below(50) == 0:
            return ["gc " + self.random.weighted(COLLECTOR)]
        name, m = self.random.weighted(CALLS), self.random.below(MUTATORS)
        words = getattr(self, name)(m)
        if words is None:
            return []
        line = " ".join(map(str, [m, name, *words]))
        return [line, "attach"] if name == "detach" else [line]

    def lines(self, count):
        made = ["attach"] * MUTATORS
        while len(made) < count:
            made += self.turn()
        return made[:count]


if __name__ == "__main__":
    if len(sys.argv) != 2:
        sys.exit(__doc__)
    print("\n".join(Script().lines(int(sys.argv[1]))))
