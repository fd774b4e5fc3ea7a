#!/usr/bin/env python3
"""Three actors round one object, whose calls are made in many orders.

    orders.py write FOLDER      writes FOLDER/order_K_N, a script on one page for each way K that the second actor takes and each order N
    orders.py check FOLDER      looks at what `record` wrote of each, in FOLDER/order_K_N

While a cycle marks, the first actor moves the one pointer to an object, which stays. The second makes an object: it is kept by a global
(a), or by nothing (b). The check prints each order with a wrong reply, and ends with 1 if there is any.
"""
import random
import sys

ORDERS = 500

OPENING = ["attach", "attach", "0 alloc 1 2 normal", "0 alloc 2 2 normal", "0 store 1 0 2", "0 alloc 3 2 normal", "0 set 2 0"]
FIRST = ["0 load 2 1 0", "0 store 3 0 2", "0 store 1 0 4"]
SECOND = {
    "a": ["1 alloc 1 2 normal", "1 gput 0 1", "1 set 1 0"],
    "b": ["1 alloc 1 2 normal", "1 set 1 0", "1 gget 2 0"],
}
COLLECTOR = ["gc begin", "gc roots", "gc mark 64", "gc retrace", "gc finish"]
CLOSING = ["0 set 2 0", "0 load 2 3 0", "0 size 2", "gc collect"]


def order(way, number):
    """The lines of an order."""
    turns = random.Random(f"{way} {number}")
    actors = [list(FIRST), list(SECOND[way]), list(COLLECTOR)]
    lines = []
    while any(actors):
        lines.append(turns.choice([actor for actor in actors if actor]).pop(0))
    return OPENING + lines + CLOSING


def wrong(way, run):
    """What is wrong about a run, or nothing. A second object that was let go before the cycle began goes with it, and any goes once."""
    replies = [line.split(" => ") for line in run]
    reply_to = {line: reply.split(" ")[0] for line, reply in replies}
    lines = [line for line, _ in replies]
    size, finished, collected = reply_to["0 size 2"], reply_to["gc finish"], reply_to["gc collect"]
    if size != "2":
        return f"the object has size {size}"
    if way == "a":
        return None if (finished, collected) == ("0", "0") else f"{finished} and {collected} objects went"
    is_early = lines.index("1 set 1 0") < lines.index("gc begin")
    if (finished, collected) not in ([("1", "0")] if is_early else [("1", "0"), ("0", "1")]):
        return f"{finished} and {collected} objects went"
    return None


def main():
    verb, folder = sys.argv[1:]
    status = 0
    for way in SECOND:
        for number in range(1, ORDERS + 1):
            name = f"{folder}/order_{way}_{number}"
            if verb == "write":
                with open(name, "w", encoding="ascii") as file:
                    file.write("\n".join(order(way, number)) + "\n")
                continue
            with open(name, encoding="ascii") as file:
                said = wrong(way, file.read().splitlines())
            if said:
                print(f"order {way} {number}: {said}")
                status = 1
    return status


sys.exit(main())
