#!/usr/bin/env python3
"""A second, unproved implementation of the line protocol, to make and check stored outputs.

Reads an input on standard input and writes what `placer` must write. It shares no code with the proved one,
and finds levels, sites and chains in other ways: plainly rather than fast.
Which of several chains Why names is free; `compare.py` takes each one that is right.
"""
import math
import sys

KINDS = {1: 1, 2: 9, 3: 1, 4: 12, 5: 12, 6: 0, 7: 0, 8: 1, 9: 2}  # kind: bytes of fields
SERVED = {1, 2, 3, 4, 5}  # what `placer` serves; Place and Why, 6 and 7, are known here and wait for it
NO_LIMIT = 0xFFFFFFFF
NEW = (0, 0, None)  # rate, fixed price, limit
FEEDER, LINK = 0, 1
HIGHEST = 3_000_000_000  # every run in the field is paid for at this level
UNLIMITED = math.inf


class Refused(Exception):
    def __init__(self, number, place):
        self.number, self.place = number, place


def frame(*body):
    body = bytes(body)
    return (body + bytes([-sum(body) % 256])).hex().upper() + "\n"


def number(field):
    return int.from_bytes(field, "big")


def signed(field):
    return int.from_bytes(field, "big", signed=True)


class Plan:
    def __init__(self, count=1):
        self.count, self.masts, self.feeders, self.links = count, {}, {}, {}

    def mast(self, m, standing):
        if m > 39:
            raise Refused(6, 1)
        if standing and m not in self.masts:
            raise Refused(7, 1)

    def pillar(self, p, place):
        if p >= self.count:
            raise Refused(9, place)

    def terms(self, fields):
        rate, fixed, limit = number(fields[0:2]), number(fields[2:6]), number(fields[6:10])
        for value, most, place in ((rate, 10_000, 3), (fixed, 1_000_000_000, 5)):
            if value > most:
                raise Refused(11, place)
        if limit != NO_LIMIT and limit > 200_000:
            raise Refused(11, 9)
        return rate, fixed, None if limit == NO_LIMIT else limit

    def edit(self, kind, f):
        if kind == 1:
            if not 1 <= f[0] <= 12:
                raise Refused(5, 1)
            self.__init__(f[0])
        elif kind == 2:
            self.mast(f[0], False)
            x, y = signed(f[1:5]), signed(f[5:9])
            for value, place in ((x, 2), (y, 6)):
                if abs(value) > 50_000:
                    raise Refused(8, place)
            self.masts[f[0]] = (x, y)
        elif kind == 3:
            self.mast(f[0], True)
            del self.masts[f[0]]
            self.feeders = {run: t for run, t in self.feeders.items() if run[0] != f[0]}
        elif kind == 4:
            self.mast(f[0], True)
            self.pillar(f[1], 2)
            self.feeders[f[0], f[1]] = self.terms(f[2:])
        elif kind == 5:
            self.pillar(f[0], 1)
            self.pillar(f[1], 2)
            if f[0] == f[1]:
                raise Refused(10, 2)
            self.links[min(f[0], f[1]), max(f[0], f[1])] = self.terms(f[2:])

    def runs(self):
        """Every run in run order: (class, end, end) and its terms."""
        feeders = [((FEEDER, m, p), self.feeders.get((m, p), NEW)) for m in sorted(self.masts) for p in range(self.count)]
        links = [((LINK, p, q), self.links.get((p, q), NEW)) for p in range(self.count) for q in range(p + 1, self.count)]
        return feeders + links

    def call(self, kind, fields):
        """The answer lines of a call."""
        if kind == 6:
            return place(self)
        if kind == 7:
            return why(self)
        self.edit(kind, fields)
        return [frame(0x81)]


def length(one, other):
    return abs(one[0] - other[0]) + abs(one[1] - other[1])


def reading(point):
    return point[0] + point[1], point[0] - point[1]


def loose(plan):
    """The pillars that no chain of tying runs joins to a mast."""
    ties = [run for run, (rate, fixed, limit) in plan.runs() if rate > 0 or limit is not None]
    tied = {p for kind, m, p in ties if kind == FEEDER}
    for _ in range(plan.count):
        for kind, p, q in ties:
            if kind == LINK and (p in tied or q in tied):
                tied |= {p, q}
    return sorted(set(range(plan.count)) - tied)


def check_ready(plan):
    if not plan.masts:
        raise Refused(13, 0)
    if loose(plan):
        raise Refused(14, loose(plan)[0])


def reaches(plan, level):
    """The reach of each run at a level that is at least its fixed price; its limit alone where the level is None."""
    found = {}
    for run, (rate, fixed, limit) in plan.runs():
        reach = UNLIMITED if limit is None else limit
        if level is not None and rate > 0:
            reach = min(reach, (level - fixed) // rate)
        found[run] = reach
    return found


def greatest(plan, reach, axis, in_field):
    """The greatest readings of the pillars on one axis with no run beyond its reach, or None if there are none.

    A bound "b is at most w above a" is an edge from a to b of length w, and the origin is a node at 0. By Bellman-Ford, the shortest
    way from the origin to a pillar is its greatest reading, and there are none where a way round has a length below 0.
    """
    origin = plan.count
    edges = {}

    def bound(a, b, w):
        edges[a, b] = min(w, edges.get((a, b), UNLIMITED))

    at = {m: reading(point)[axis] for m, point in plan.masts.items()}
    for (kind, a, b), r in reach.items():
        if kind == FEEDER:
            bound(origin, b, at[a] + r)
            bound(b, origin, r - at[a])
        else:
            bound(a, b, r)
            bound(b, a, r)
    if in_field:
        for p in range(plan.count):
            bound(origin, p, max(at.values()))
            bound(p, origin, -min(at.values()))
    way = [UNLIMITED] * plan.count + [0]
    for _ in range(plan.count + 2):
        before = list(way)
        for (a, b), w in edges.items():
            way[b] = min(way[b], way[a] + w)
        if way[origin] < 0:
            return None
        if way == before:
            return way[:origin]
    raise AssertionError("a way round below 0 that misses the origin")


def possible(plan, level):
    """Whether some placing, anywhere, keeps every limit and costs no more than the level; or only keeps the limits, at None."""
    reach = reaches(plan, level)
    return all(greatest(plan, reach, axis, False) is not None for axis in (0, 1))


def level_of(plan):
    """The level of a plan without loose pillars, or None where no placing keeps every limit."""
    if not possible(plan, None):
        return None
    low, high = max(fixed for _, (rate, fixed, limit) in plan.runs()), HIGHEST
    assert possible(plan, high)
    while low < high:
        middle = (low + high) // 2
        if possible(plan, middle):
            high = middle
        else:
            low = middle + 1
    return low


def place(plan):
    check_ready(plan)
    level = level_of(plan)
    if level is None:
        raise Refused(15, 0)
    reach = reaches(plan, level)
    sums, differences = (greatest(plan, reach, axis, True) for axis in (0, 1))
    half = lambda h: h.to_bytes(4, "big", signed=True)
    sites = [frame(0x84, p, *half(s + d), *half(s - d)) for p, (s, d) in enumerate(zip(sums, differences))]
    return [frame(0x83, *level.to_bytes(4, "big"))] + sites


def short_chain(plan, reach):
    """A chain whose reaches add to less than the length between its masts: masts, gap, total, pillars. None if there is none.

    By Floyd-Warshall, the shortest way by links between each two pillars. A way is only exchanged for a shorter one, so none repeats a
    pillar.
    """
    pillars = range(plan.count)
    way = {(p, q): (reach[LINK, min(p, q), max(p, q)], [p, q]) for p in pillars for q in pillars if p != q}
    way.update({(p, p): (0, [p]) for p in pillars})
    for middle in pillars:
        for p in pillars:
            for q in pillars:
                (first, through), (second, onward) = way[p, middle], way[middle, q]
                if first + second < way[p, q][0]:
                    way[p, q] = first + second, through + onward[1:]
    for m in sorted(plan.masts):
        ends = [min((reach[FEEDER, m, p] + way[p, q][0], way[p, q][1]) for p in pillars) for q in pillars]
        for n in sorted(plan.masts):
            gap = length(plan.masts[m], plan.masts[n])
            for q in pillars:
                total = ends[q][0] + reach[FEEDER, n, q]
                if m < n and total < gap:
                    return m, n, gap, total, ends[q][1]
    return None


def chain_frame(kind, chain):
    m, n, gap, total, pillars = chain
    return frame(kind, m, n, *gap.to_bytes(4, "big"), *total.to_bytes(4, "big"), len(pillars), *pillars)


def why(plan):
    check_ready(plan)
    level = level_of(plan)
    if level is None:
        return [chain_frame(0x88, short_chain(plan, reaches(plan, None)))]
    if level == 0:
        return [frame(0x85)]
    for run, (rate, fixed, limit) in plan.runs():
        if fixed == level:
            return [frame(0x86, *run)]
    return [chain_frame(0x87, short_chain(plan, reaches(plan, level - 1)))]


def read(line):
    if len(line) == 0 or len(line) % 2 or len(line) > 64:
        raise Refused(1, min(len(line), 64))
    for column, c in enumerate(line):
        if c not in b"0123456789ABCDEF":
            raise Refused(2, column)
    data = bytes.fromhex(line.decode())
    if sum(data) % 256:
        raise Refused(3, len(data) - 1)
    if KINDS.get(data[0]) != len(data) - 2 or data[0] not in SERVED:
        raise Refused(4, 0)
    return data[0], data[1:-1]


def served(data):
    """Each line of an input, the plan after it and its answer lines."""
    plan = Plan()
    if len(data) > 32_768:
        yield data, plan, [frame(0x82, 16, 0)]
        return
    lines = data.split(b"\n")
    if lines[-1] == b"":
        lines.pop()
    told = {}  # the answers to Place and Why since the last edit, which are the same if asked again
    for line in lines:
        try:
            kind, fields = read(line)
            answers = told[kind] if kind in told else plan.call(kind, fields)
            told = told | {kind: answers} if kind in (6, 7) else {}
        except Refused as r:
            answers = [frame(0x82, r.number, r.place)]
        yield line, plan, answers


def serve(data):
    return "".join("".join(answers) for _, _, answers in served(data))


if __name__ == "__main__":
    sys.stdout.write(serve(sys.stdin.buffer.read()))
