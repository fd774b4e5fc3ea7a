"""Random scripts for a heap: calls of mutators of all kinds, and events of the collector. They are made with no knowledge of what a
heap answers, so what a register holds is a guess: calls go to few registers, so that they meet."""
import random

FIRST_ADDRESS, PAGE_BYTES, MOST_WORDS, WORD_END = 268435456, 4096, 65536, 1 << 64
COLLECTOR = {"begin": 4, "partial": 3, "roots": 3, "mark": 5, "retrace": 3, "sweep": 3, "finish": 3, "collect": 1, "no": 1}
CALLS = {
    "alloc": 18, "set": 4, "copy": 2, "add": 2, "sub": 1, "get": 1, "store": 8, "load": 6, "base": 3, "size": 2,
    "push": 3, "pop": 3, "gput": 2, "gget": 2, "link": 9, "unlink": 1, "detach": 0.3,
}

# Numbers from here on are set once in a script, so no register holds one before.
ONCE = 10**12


class Script:
    """A source of lines for a heap of so many pages, with so many mutators, about one event of the collector in `often` lines, and frees
    of this weight among the calls."""

    def __init__(self, seed, pages, mutators, often, frees):
        self.draw = random.Random(seed)
        self.pages, self.mutators, self.often = pages, mutators, often
        self.calls = {**CALLS, "free": frees}
        self.once = ONCE

    def register(self):
        return self.draw.randrange(6)

    def request(self):
        """Many of one class, most of them few words, some those of a large object, some bad."""
        draw = self.draw
        return draw.choice([30] * 14 + [draw.randint(1, 40)] * 15 + [draw.randint(1, 256)] * 6 + [draw.randint(257, 2300)] * 3
                           + [0, MOST_WORDS + draw.randint(1, 1000)])

    def offset(self):
        """Most lie inside of small objects, some past every address."""
        draw = self.draw
        return draw.choice([draw.randrange(4)] * 18 + [draw.randrange(3000), WORD_END - 1 - draw.randrange(9)])

    def word(self):
        """A number, a number that isn't set twice, or an address of the heap's pages or beside them."""
        draw = self.draw
        self.once += 1
        address = FIRST_ADDRESS - 64 + draw.randrange(PAGE_BYTES * self.pages + 128)
        return draw.choice([draw.randrange(100), WORD_END - 1 - draw.randrange(100), self.once, address, address])

    def words_behind(self, name):
        """What stands behind a call's name."""
        draw, a, b, c = self.draw, self.register(), self.register(), self.register()
        words = {
            "alloc": lambda: [a, self.request(), draw.choice(["normal", "normal", "atomic"])],
            "set": lambda: [a, self.word()],
            "copy": lambda: [a, b],
            "add": lambda: [a, b, draw.choice([draw.randrange(200), 8 * draw.randrange(40)])],
            "sub": lambda: [a, b, c],
            "store": lambda: [a, self.offset(), b],
            "load": lambda: [a, b, self.offset()],
            "base": lambda: [a, b],
            "gput": lambda: [draw.randrange(64), a],
            "gget": lambda: [a, draw.randrange(64)],
            "link": lambda: [a, self.offset(), b],
            "unlink": lambda: [a, self.offset()],
            "detach": lambda: [],
        }
        return words.get(name, lambda: [a])()

    def drawn(self, weights):
        return self.draw.choices(list(weights), list(weights.values()))[0]

    def line(self):
        if self.draw.randrange(self.often) == 0:
            name = self.drawn(COLLECTOR)
            return " ".join(["gc", name] + ([str(self.draw.randrange(60))] if name == "mark" else []))
        if self.draw.randrange(25) == 0:
            return "attach"
        name = self.drawn(self.calls)
        return " ".join(map(str, [self.draw.randrange(self.mutators), name, *self.words_behind(name)]))

    def lines(self, count):
        return [self.line() for _ in range(count)]
