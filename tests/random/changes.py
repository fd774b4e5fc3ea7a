"""A run with one line changed, added or doubled, so that no heap answers as it says: the checker has to say no at that line."""
from scripts import FIRST_ADDRESS, ONCE, PAGE_BYTES

WORD_BYTES = 8


def changed_reply(command, reply):
    """A reply that no heap gives where it gives this one."""
    if reply.startswith("refused"):
        return "ok"
    if reply == "ok":
        return "refused 4 NotBase"
    if reply.startswith("mutator"):
        return "ok"
    if command.startswith("gc mark"):
        return str(int(command.split()[2]) + 1)
    if command in ("gc retrace", "gc sweep"):
        return "2"
    return str((int(reply) + 1) % 2**64)


def changed_place(command, place, pages):
    """A request is granted at no address that isn't a cell's, nor without one, and isn't refused where there is room."""
    for other in (place + WORD_BYTES, 0, place + PAGE_BYTES * pages, FIRST_ADDRESS - PAGE_BYTES):
        yield f"{command} => ok @ {other}"
    yield f"{command} => ok"
    yield f"{command} => refused 6 Full"


def changed_bases(command, bases):
    """What a collection took is neither one more nor one less, nor one of them twice, nor an address inside of one."""
    def line(count, *named):
        return f"{command} => {count} -" + "".join(f" {base}" for base in named)

    yield line(len(bases) + 1, *bases)
    yield line(len(bases), *bases[:-1])
    yield line(len(bases) + 1, *bases, bases[-1])
    yield line(len(bases), *bases[:-1], bases[-1] + WORD_BYTES)
    if command == "gc finish":
        yield f"{command} => {len(bases)}"
    else:
        yield line(len(bases) - 1, *bases[:-1])
        yield f"{command} => {len(bases) + 1}"
        yield f"{command} => {len(bases) - 1}"


def told_early(command, reply):
    """What is so only behind a line can't be told before it: a word that is set once, and the end of a cycle."""
    words = command.split()
    if words[1] == "set" and int(words[3]) >= ONCE and int(words[3]) < 2 * ONCE:
        yield f"{words[0]} get {words[2]} => {words[3]}"
    if command == "gc begin" and reply == "ok":
        yield "gc finish => 0 -"


def changes(line, pages):
    """Lines that can't stand in place of this one of a run, and then those that can't stand before it; and whether it can't stand twice."""
    command, said = line.split(" => ")
    reply, _, place = said.partition(" @ ")
    reply, _, bases = reply.partition(" -")
    instead = [f"{command} => {changed_reply(command, reply)}"] + (list(changed_place(command, int(place), pages)) if place else [])
    if bases:
        instead += changed_bases(command, [int(base) for base in bases.split()])
    return instead, list(told_early(command, reply)) if len(command.split()) > 1 else [], bool(place)


def changed_runs(run, pages, every):
    """Of every so many lines of a run: the beginning of the run with such a line, the last of the text."""
    for at in range(0, len(run), every):
        instead, before, not_twice = changes(run[at], pages)
        for line in instead + before:
            yield run[:at] + [line]
        if not_twice:
            yield run[: at + 1] + [run[at]]
