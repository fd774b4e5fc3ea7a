"""What is true after each line of a run that was written down (docs/REPLAY.md), worked out from its lines alone."""

FIRST, WORD, PAGE = 268435456, 8, 512
CLASSES = [2, 4, 6, 8, 12, 16, 24, 32, 48, 64, 96, 128, 256]
MASK = 2**64 - 1


class Run:
    def __init__(self):
        self.mutators, self.globals, self.words = {}, {}, {}
        self.objects, self.links, self.births = {}, {}, 0
        self.marking, self.count, self.touched = False, 0, set()
        self.old = 0

    def place(self, address):
        return (address - FIRST) // WORD

    def object_at(self, word):
        if word >= FIRST:
            at = self.place(word)
            for place, (_, n, _) in self.objects.items():
                if place <= at < place + n:
                    return place
        return None

    def closure(self, start):
        seen, todo = set(), [place for place in start if place is not None]
        while todo:
            place = todo.pop()
            if place in seen:
                continue
            seen.add(place)
            _, n, kind = self.objects[place]
            for at in range(place, place + n if kind == 0 else place):
                target = self.object_at(self.words.get(at, 0))
                if target is not None:
                    todo.append(target)
        return seen

    def reached(self):
        words = list(self.globals.values())
        for registers, stack in self.mutators.values():
            words += registers + stack
        return self.closure(self.object_at(word) for word in words)

    def leave(self, places):
        for place in places:
            del self.objects[place]
        for at, base in list(self.links.items()):
            if self.object_at(FIRST + WORD * at) is None:
                del self.links[at]
            elif base not in self.objects:
                del self.links[at]
                self.words[at] = 0

    def born(self, n, kind, base):
        size = next((c for c in CLASSES if n <= c), -(-n // PAGE) * PAGE)
        place = self.place(base)
        self.births += 1
        self.objects[place] = (self.births, size, 1 if kind == "atomic" else 0)
        for at in range(place, place + size):
            self.words.pop(at, None)
        if self.marking:
            self.touched.add(place)

    def call(self, slot, words, reply, behind):
        registers, stack = self.mutators[slot]
        name, at = words[0], [int(w) if w.isdigit() else w for w in words[1:]]
        value = int(reply) if reply.isdigit() else None
        if name == "detach":
            del self.mutators[slot]
        elif name == "set":
            registers[at[0]] = at[1]
        elif name == "copy":
            registers[at[0]] = registers[at[1]]
        elif name == "add":
            registers[at[0]] = (registers[at[1]] + at[2]) & MASK
        elif name == "sub":
            registers[at[0]] = (registers[at[1]] - registers[at[2]]) & MASK
        elif name == "push":
            stack.append(registers[at[0]])
        elif name == "pop":
            registers[at[0]] = stack.pop()
        elif name in ("load", "base", "gget"):
            registers[at[0]] = value
        elif name == "store":
            self.words[self.place((registers[at[0]] + WORD * at[1]) & MASK)] = registers[at[2]]
        elif name == "alloc":
            base = int(behind.split()[1])
            self.born(at[1], at[2], base)
            registers[at[0]] = base
        elif name == "free":
            self.leave([self.object_at(registers[at[0]])])
        elif name == "gput":
            self.globals[at[0]] = registers[at[1]]
        elif name == "link":
            self.links[self.place((registers[at[0]] + WORD * at[1]) & MASK)] = self.object_at(registers[at[2]])
        elif name == "unlink":
            self.links.pop(self.place((registers[at[0]] + WORD * at[1]) & MASK), None)

    def collect(self, behind):
        """A full collection may leave out the bases of what it forgets: all that isn't reached."""
        named = [self.place(int(base)) for base in behind.split()[1:]]
        self.leave(named if behind else set(self.objects) - self.reached())
        self.marking, self.count, self.old = False, self.count + 1, self.births

    def step(self, line):
        command, answer = line.split(" => ")
        words = command.split()
        reply, mark, rest = answer.partition(" @") if " @" in answer else answer.partition(" -")
        if not reply.startswith("refused"):
            if words == ["attach"]:
                self.mutators[int(reply.split()[1])] = ([0] * 16, [])
            elif words[0] != "gc":
                self.call(int(words[0]), words[1:], reply, mark.strip() + rest)
            elif words[1] in ("finish", "collect"):
                self.collect(mark.strip() + rest)
            elif words[1] in ("begin", "partial"):
                old = [p for p, (birth, _, _) in self.objects.items() if birth <= self.old] if words[1] == "partial" else []
                self.marking, self.touched = True, self.closure(old)
        self.touched = (self.touched & set(self.objects)) | self.reached() if self.marking else set()
        return command
