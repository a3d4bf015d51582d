#!/usr/bin/env python3
"""Compare `placer` with the reference on streams of random calls, damaged lines, random yards and inputs around the size limit.

Run from the repository's root after an `rt run` in crates/placer, which builds it. Exit status 1 where an output differs. Where Why names a chain, each chain
that is right is accepted; everything else must be equal byte for byte.

    compare.py                      compare crates/placer/out/placer
    compare.py program argument...  compare another program, such as `python3 tools/reference.py`
    compare.py --stream number      write that stream to standard output and compare nothing
"""
import collections
import random
import subprocess
import sys

import reference

LONGEST = 32_768
PLACE, WHY = b"06FA", b"07F9"


def frame(*body):
    body = bytes(body)
    return (body + bytes([-sum(body) % 256])).hex().upper().encode()


# Whether an output is right.


def limits(terms):
    return terms[2]


def reaches_at(level):
    """How long a run may be at a level, by its terms: None if any length, below 0 where even its fixed price is more."""

    def reach(terms):
        rate, fixed, limit = terms
        paid = [] if rate == 0 else [(level - fixed) // rate]
        kept = [] if limit is None else [limit]
        return min(paid + kept, default=None)

    return reach


def chain_fault(plan, kind, reach, answer):
    """What is wrong with an answer line that must be a chain of this kind, or None if it is right.

    `reach` takes a run's terms to how long it may be, None if any length.
    """
    if not answer.endswith(b"\n") or any(c not in b"0123456789ABCDEF" for c in answer[:-1]) or len(answer) % 2 == 0:
        return "no line of bytes"
    data = bytes.fromhex(answer[:-1].decode())
    if len(data) < 13 or sum(data) % 256 or data[0] != kind:
        return "no frame of this kind"
    m, n, gap, total = data[1], data[2], int.from_bytes(data[3:7], "big"), int.from_bytes(data[7:11], "big")
    pillars = list(data[12:-1])
    if data[11] != len(pillars) or not pillars:
        return "the count is not that of the pillars"
    if m not in plan.masts or n not in plan.masts:
        return "a mast does not stand"
    if m >= n:
        return "the lower mast is not first"
    if len(set(pillars)) != len(pillars) or max(pillars) >= plan.count:
        return "a pillar is repeated or not in the plan"
    (x, y), (u, v) = plan.masts[m], plan.masts[n]
    if gap != abs(x - u) + abs(y - v):
        return "the gap is not the length between the masts"
    terms = [plan.feeders.get((m, pillars[0]), reference.NEW), plan.feeders.get((n, pillars[-1]), reference.NEW)]
    for p, q in zip(pillars, pillars[1:]):
        terms.append(plan.links.get((min(p, q), max(p, q)), reference.NEW))
    lengths = [reach(t) for t in terms]
    if None in lengths:
        return "a run is not limited"
    if min(lengths) < 0:
        return "a fixed price is above the level"
    if total != sum(lengths):
        return "the total is not that of the runs"
    if total >= gap:
        return "the chain is not too short"
    return None


def why_fault(plan, answer):
    """What is wrong with an answer to a Why that the reference answers by a chain, or None."""
    level = reference.level_of(plan)
    if level is None:
        return chain_fault(plan, 0x88, limits, answer)
    return chain_fault(plan, 0x87, reaches_at(level - 1), answer)


def sort(answer):
    """What sort of answer to Place or Why this is, by its first line."""
    data = bytes.fromhex(answer)
    if data[0] == 0x82:
        return {4: "not served", 13: "no mast", 14: "loose pillar", 15: "no placing"}[data[1]]
    if data[0] == 0x83:
        return "Level" if any(data[1:5]) else "Level 0"
    return {0x85: "Floor", 0x86: "Fixed", 0x87: "Chain", 0x88: "Clash"}[data[0]]


def first_fault(data, output, sorts):
    """The first fault of an output for an input, or None if it is right. Counts the answers to Place and Why in `sorts`."""
    given = output.splitlines(keepends=True)
    at = 0
    fault = None
    for number, (line, plan, answers) in enumerate(reference.served(data), 1):
        expected = [a.encode() for a in answers]
        got = given[at : at + len(expected)]
        at += len(expected)
        if line in (PLACE, WHY):
            sorts["Place" if line == PLACE else "Why", sort(answers[0])] += 1
        if fault:
            continue
        if line == WHY and answers[0][:2] in ("87", "88"):
            wrong = why_fault(plan, got[0]) if got else "nothing"
        else:
            wrong = None if got == expected else "not equal"
        if wrong:
            fault = f"line {number} {line[:80]!r}: {wrong}; expected {expected}, got {got}"
    if not fault and at < len(given):
        fault = f"behind the last answer: {given[at:][:3]}"
    return fault


# Streams of random lines.


def fields(rng, kind):
    """The fields of a call: in range, at the ends of its ranges, and beyond them."""
    some = lambda most: rng.choice([rng.randrange(most), rng.randrange(256)])
    axis = lambda: rng.choice([rng.randrange(-50_002, 50_003), 50_000, -50_000, 50_001, -50_001, rng.randrange(-(2**31), 2**31)])
    coordinate = lambda: axis().to_bytes(4, "big", signed=True)
    number = lambda size, *values: rng.choice(values).to_bytes(size, "big")
    terms = lambda: (
        number(2, 0, 1, 10_000, 10_001, 65_535)
        + number(4, 0, 10**9, 10**9 + 1, 2**32 - 1)
        + number(4, 0, 200_000, 200_001, 2**32 - 1, 2**32 - 2)
    )
    return {
        1: lambda: bytes([some(14)]),
        2: lambda: bytes([some(42)]) + coordinate() + coordinate(),
        3: lambda: bytes([some(42)]),
        4: lambda: bytes([some(6), some(5)]) + terms(),
        5: lambda: bytes([some(5), some(5)]) + terms(),
        8: lambda: bytes([some(17)]),
        9: lambda: bytes([some(12), some(17)]),
    }.get(kind, lambda: b"")()


def line(rng):
    kind = rng.choice([1, 2, 2, 2, 3, 4, 4, 4, 5, 5, 6, 7, 8, 9, rng.randrange(256)])
    text = frame(kind, *fields(rng, kind))
    damage = rng.random()
    if damage < 0.10:
        text = bytearray(text)
        text[rng.randrange(len(text))] = rng.randrange(256)
    elif damage < 0.15:
        text = text[: rng.randrange(len(text) + 1)]
    elif damage < 0.20:
        text = text + bytes(rng.randrange(256) for _ in range(rng.randrange(80)))
    elif damage < 0.23:
        text = text.lower()
    return bytes(text).replace(b"\n", b"x")


# Streams of random yards.


class Yard:
    """Makes the lines of a yard whose limits are around the lengths of a hidden placing.

    Limits at those lengths are all kept by that placing, and bind; limits a little below them mostly clash.
    """

    def __init__(self, rng, pillars):
        self.rng, self.pillars = rng, pillars
        self.size = rng.choice([0, 1, 2, 3, 5, 10, 30, 100, 1_000, 50_000])
        aim = rng.choice(["clash", "clash", "bind", "bind", "free"])
        self.limited = rng.choice([0, 0.1, 0.5] if aim == "free" else [0.5, 1])  # how many of the runs
        self.slack = rng.choice(
            {
                "clash": [[-1], [0, 0, -1, -2], range(-1 - self.size, 1), [-1 - self.size // 3], [-1 - self.size], [-200_000]],
                "bind": [[0], [0, 0, 0, 1], range(-self.size // 20, 2 + self.size // 20)],
                "free": [range(2 + self.size), [2 * self.size], [200_000]],
            }[aim]
        )
        self.rates = rng.choice([[0], [0, 0, 0, 1], [0, 1, 2, 3], [0, 0, 0, 0, 0, 7], [1, 2, 5, 10], [0, 0, 0, 10_000], range(10_001)])
        way = min(10**9, max(self.rates) * self.size)  # about what the rates make a run cost
        self.fixeds = rng.choice([[0], [0], [0], [0, 0, 0, way // 4], [way], range(way // 4 + 1), [10**9], range(10**9 + 1)])
        self.hidden = [tuple(rng.randint(-self.size, self.size) for _ in range(2)) for _ in range(pillars)]
        self.dense = rng.choice([0.1, 0.5, 1])  # how many of the runs have terms
        self.standing = {}
        self.lines = [frame(1, pillars)]

    def spread(self, masts):
        """Masts and terms all over the yard."""
        for m in self.rng.sample(range(40), masts):
            self.raise_mast(m)
        for p in range(self.pillars):
            for m in self.standing:
                if self.rng.random() < self.dense:
                    self.feeder(m, p)
            for q in range(p):
                if self.rng.random() < self.dense:
                    self.link(p, q)
        if self.rng.random() < 0.9:
            self.tie_all()

    def row(self):
        """Pillars in a row between masts at its two ends, each linked to the next: its chains are long."""
        order = self.rng.sample(range(self.pillars), self.pillars)
        for at, p in enumerate(order):
            self.hidden[p] = (2 * self.size * at // max(1, self.pillars - 1) - self.size,) * 2
        for m in self.rng.sample(range(40), self.rng.randint(2, 4)):
            left = len(self.standing) % 2 == 0
            self.raise_mast(m, (-self.size if left else self.size, 0))
            self.feeder(m, order[0 if left else -1], True)
        for p, q in zip(order, order[1:]):
            self.link(p, q, True)
        self.dense = 0

    def terms(self, length, tying=False):
        rate, limit = self.rng.choice(self.rates), reference.NO_LIMIT
        if self.rng.random() < self.limited:
            limit = max(0, min(200_000, length + self.rng.choice(self.slack)))
        if tying and rate == 0 and limit == reference.NO_LIMIT:
            rate, limit = self.rng.choice([(1, limit), (10_000, limit), (0, 200_000), (0, min(200_000, length + self.size))])
        return rate.to_bytes(2, "big") + self.rng.choice(self.fixeds).to_bytes(4, "big") + limit.to_bytes(4, "big")

    def feeder(self, m, p, tying=False):
        (x, y), (s, d) = self.standing[m], self.hidden[p]
        self.lines.append(frame(4, m, p, *self.terms(max(abs(x + y - s), abs(x - y - d)), tying)))

    def link(self, p, q, tying=False):
        length = max(abs(a - b) for a, b in zip(self.hidden[p], self.hidden[q]))
        self.lines.append(frame(5, p, q, *self.terms(length, tying)))

    def raise_mast(self, m, point=None):
        x, y = point or (self.rng.choice([-self.size, self.size, self.rng.randint(-self.size, self.size)]) for _ in range(2))
        if not point and self.standing and self.rng.random() < 0.1:
            x, y = self.rng.choice(list(self.standing.values()))
        self.standing[m] = x, y
        self.lines.append(frame(2, m, *x.to_bytes(4, "big", signed=True), *y.to_bytes(4, "big", signed=True)))

    def tie_all(self):
        """Ties each pillar to a mast or to a pillar before it."""
        for p in range(self.pillars):
            if p > 0 and self.rng.random() < 0.5:
                self.link(p, self.rng.randrange(p), True)
            elif self.standing:
                self.feeder(self.rng.choice(list(self.standing)), p, True)

    def change(self):
        rng, kind = self.rng, self.rng.random()
        if kind < 0.35 and self.standing:
            self.feeder(rng.choice(list(self.standing)), rng.randrange(self.pillars))
        elif kind < 0.6 and self.pillars > 1:
            self.link(*rng.sample(range(self.pillars), 2))
        elif kind < 0.7 and self.standing:
            self.raise_mast(rng.choice(list(self.standing)))
        elif kind < 0.8 and len(self.standing) < 40:
            m = rng.choice([m for m in range(40) if m not in self.standing])
            self.raise_mast(m)
            for p in range(self.pillars):
                if rng.random() < self.dense:
                    self.feeder(m, p)
        elif kind < 0.9 and self.standing:
            m = rng.choice(list(self.standing))
            self.lines.append(frame(3, m))
            del self.standing[m]
            if rng.random() < 0.5:
                self.raise_mast(m)
        else:
            p = rng.randrange(self.pillars)
            self.hidden[p] = tuple(rng.randint(-self.size, self.size) for _ in range(2))


def yard_stream(rng, pillars, masts, rounds):
    """Calls of Place and Why with edits between them; the pillars are in a row where masts is None."""
    yard = Yard(rng, pillars)
    if masts is None:
        yard.row()
    else:
        yard.spread(masts)
    for _ in range(rounds):
        yard.lines += rng.choice([[PLACE, WHY], [PLACE, WHY], [WHY, PLACE], [PLACE], [WHY]])
        for _ in range(rng.choice([1, 1, 2, 5])):
            yard.change()
        if rng.random() < 0.05:  # strike all masts but a few
            for m in list(yard.standing)[rng.randrange(3) :]:
                yard.lines.append(frame(3, m))
                del yard.standing[m]
        if rng.random() < 0.3:
            yard.tie_all()
    data = b""
    for text in yard.lines + [PLACE, WHY]:
        if len(data) + len(text) + 1 < LONGEST:
            data += text + b"\n"
    return data


def streams():
    for seed in range(400):
        rng = random.Random(seed)
        yield b"\n".join(line(rng) for _ in range(rng.randrange(400))) + rng.choice([b"", b"\n", b"\n\n"])
    for size in (LONGEST - 1, LONGEST, LONGEST + 1, 100_000):
        yield (b"06FA\n" * 30_000)[:size]
    for seed in range(1_200):
        rng = random.Random(f"small yard {seed}")
        pillars, masts = rng.choice([1, 2, 3, rng.randint(1, 12)]), rng.choice([rng.randint(0, 2), 2, 3, 4, 6, 10, rng.randint(0, 40)])
        yield yard_stream(rng, pillars, masts, rng.randint(1, 6))
    for seed in range(200):
        rng = random.Random(f"row {seed}")
        yield yard_stream(rng, rng.choice([3, 5, 11, 12]), None, rng.randint(1, 3))
    for seed in range(60):
        rng = random.Random(f"full yard {seed}")
        yield yard_stream(rng, 12, 40, rng.randint(2, 8))
    tied = [frame(2, 0, *bytes(8))] + [frame(4, 0, p, *bytes([0, 1]), *bytes(4), *b"\xff" * 4) for p in range(12)]
    yield (b"\n".join([frame(1, 12)] + tied + [PLACE] * 7_000))[: LONGEST - 1]  # the longest output


def main(arguments):
    if arguments[:1] == ["--stream"]:
        sys.stdout.buffer.write(list(streams())[int(arguments[1])])
        return 0
    count = differ = 0
    sorts = collections.Counter()
    for data in streams():
        ran = subprocess.run(arguments or ["crates/placer/out/placer"], input=data, capture_output=True)
        fault = first_fault(data, ran.stdout, sorts)
        if ran.returncode != 0:
            fault = f"exit status {ran.returncode}"
        if fault:
            differ += 1
            print(f"stream {count}: {fault}")
        count += 1
    for call in ("Place", "Why"):
        of_call = {name: n for (c, name), n in sorted(sorts.items()) if c == call}
        print(f"{call}: {sum(of_call.values())} answers: " + ", ".join(f"{name} {n}" for name, n in of_call.items()))
    print(f"{count} streams, {differ} differ")
    return 1 if differ else 0


if __name__ == "__main__":
    sys.exit(main(sys.argv[1:]))
