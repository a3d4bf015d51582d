#!/usr/bin/env python3
"""Tests of the reference and of the comparison's own check of chains: known yards, and tiny yards against all placings.

Run from anywhere: python3 tools/test_reference.py. A number as argument is how many random tiny yards of each size are tried.
"""
import collections
import itertools
import random
import sys
import unittest

import compare
import reference

TINY = 2_000  # random tiny yards of each size


def plan_of(count, masts, feeders=(), links=()):
    """A plan by its masts' points and its runs: (end, end, rate, fixed price, limit)."""
    plan = reference.Plan(count)
    plan.masts = dict(enumerate(masts))
    plan.feeders = {(m, p): tuple(terms) for m, p, *terms in feeders}
    plan.links = {(p, q): tuple(terms) for p, q, *terms in links}
    return plan


def answers(plan, call):
    """The answer frames of a call as bytes."""
    try:
        lines = call(plan)
    except reference.Refused as r:
        lines = [reference.frame(0x82, r.number, r.place)]
    return [bytes.fromhex(text) for text in lines]


def placed(plan):
    """What Place answers: the level and each pillar's halves, or the refusal's number and place."""
    first, *rest = answers(plan, reference.place)
    if first[0] == 0x82:
        return "refused", first[1], first[2]
    half = lambda field: int.from_bytes(field, "big", signed=True)
    return int.from_bytes(first[1:5], "big"), *((half(f[2:6]), half(f[6:10])) for f in rest)


def reason(plan):
    """What Why answers, with its chain checked."""
    (f,) = answers(plan, reference.why)
    if f[0] in (0x87, 0x88):
        fault = compare.why_fault(plan, reference.why(plan)[0].encode())
        assert fault is None, fault
        number = lambda field: int.from_bytes(field, "big")
        return "Chain" if f[0] == 0x87 else "Clash", number(f[3:7]), number(f[7:11])
    return {0x82: "refused", 0x85: "Floor", 0x86: "Fixed"}[f[0]], *f[1:-1]


class KnownYards(unittest.TestCase):
    def expect(self, plan, place, why):
        self.assertEqual(placed(plan), place)
        self.assertEqual(reason(plan), why)

    def test_the_dearer_feeder_is_the_shorter(self):
        plan = plan_of(1, [(0, 0), (10, 0)], [(0, 0, 3, 0, None), (1, 0, 2, 0, None)])
        self.expect(plan, (12, (8, 0)), ("Chain", 10, 8))

    def test_a_pillar_in_the_middle_of_a_square(self):
        plan = plan_of(1, [(0, 0), (1, 0), (0, 1), (1, 1)], [(m, 0, 1, 0, None) for m in range(4)])
        self.assertEqual(placed(plan), (1, (1, 1)))
        self.assertIn(reason(plan), [("Chain", 1, 0), ("Chain", 2, 0)])  # two masts along a side, or across

    def test_limits_that_clash(self):
        plan = plan_of(1, [(0, 0), (10, 0)], [(0, 0, 0, 0, 4), (1, 0, 0, 0, 5)])
        self.expect(plan, ("refused", 15, 0), ("Clash", 10, 9))

    def test_limits_that_just_meet(self):
        plan = plan_of(1, [(0, 0), (10, 0)], [(0, 0, 0, 0, 5), (1, 0, 0, 0, 5)])
        self.expect(plan, (0, (10, 0)), ("Floor",))

    def test_a_chain_through_a_link(self):
        plan = plan_of(2, [(0, 0), (12, 0)], [(0, 0, 1, 0, None), (1, 1, 1, 0, None)], [(0, 1, 2, 0, None)])
        self.expect(plan, (5, (10, 0), (14, 0)), ("Chain", 12, 10))

    def test_one_mast_and_a_fixed_price(self):
        plan = plan_of(1, [(7, -2)], [(0, 0, 5, 100, None)])
        self.expect(plan, (100, (14, -4)), ("Fixed", 0, 0, 0))

    def test_the_field_cuts_a_wide_limit(self):
        plan = plan_of(1, [(0, 0), (10, 0), (0, 10), (10, 10)], [(0, 0, 0, 0, 200_000)])
        self.expect(plan, (0, (30, 10)), ("Floor",))

    def test_the_greatest_level(self):
        plan = plan_of(1, [(-50_000, -50_000), (50_000, 50_000)], [(m, 0, 10_000, 10**9, None) for m in (0, 1)])
        self.expect(plan, (2 * 10**9, (0, 0)), ("Chain", 200_000, 199_998))

    def test_no_mast_before_a_loose_pillar(self):
        self.expect(plan_of(2, []), ("refused", 13, 0), ("refused", 13, 0))

    def test_the_lowest_loose_pillar(self):
        plan = plan_of(4, [(0, 0)], [(0, 0, 1, 0, None), (0, 1, 0, 5, None)], [(0, 2, 0, 0, 0), (1, 3, 1, 0, None)])
        self.expect(plan, ("refused", 14, 1), ("refused", 14, 1))

    def test_a_loose_pillar_before_a_clash(self):
        plan = plan_of(2, [(0, 0), (10, 0)], [(0, 0, 0, 0, 4), (1, 0, 0, 0, 5)])
        self.expect(plan, ("refused", 14, 1), ("refused", 14, 1))

    def test_the_first_run_with_the_level_as_fixed_price(self):
        plan = plan_of(2, [(0, 0)], [(0, 0, 1, 0, None)], [(0, 1, 1, 7, None)])
        self.expect(plan, (7, (0, 0), (0, 0)), ("Fixed", 1, 0, 1))
        plan.feeders[0, 1] = (0, 7, None)
        self.expect(plan, (7, (0, 0), (0, 0)), ("Fixed", 0, 0, 1))

    def test_other_calls_are_still_refused(self):
        self.assertEqual(reference.serve(b"0801F7\n090000F7\n"), "8204007A\n" * 2)


def placings(plan, margin):
    """Every placing that keeps the limits, on sites in the field and up to a margin around it: its readings and its level."""
    marks = [reference.reading(point) for point in plan.masts.values()]
    wide = lambda axis: range(min(m[axis] for m in marks) - margin, max(m[axis] for m in marks) + margin + 1)
    apart = lambda one, other: max(abs(one[0] - other[0]), abs(one[1] - other[1]))

    def price(terms, steps):
        rate, fixed, limit = terms
        return None if limit is not None and steps > limit else rate * steps + fixed

    feeders = []  # for each pillar its sites that keep its feeders' limits, with the greatest price of a feeder
    for p in range(plan.count):
        found = []
        for site in itertools.product(wide(0), wide(1)):
            prices = [
                price(plan.feeders.get((m, p), reference.NEW), apart(site, reference.reading(point)))
                for m, point in plan.masts.items()
            ]
            if None not in prices:
                found.append((site, max(prices)))
        feeders.append(found)
    pairs = [(p, q, plan.links.get((p, q), reference.NEW)) for p in range(plan.count) for q in range(p + 1, plan.count)]
    for choice in itertools.product(*feeders):
        prices = [cost for _, cost in choice]
        for p, q, terms in pairs:
            prices.append(price(terms, apart(choice[p][0], choice[q][0])))
            if prices[-1] is None:
                break
        else:
            yield [site for site, _ in choice], max(prices)


def best_placing(plan, margin):
    """The level and the sites as halves by trying every placing; None where none keeps the limits."""
    level, at_level = None, []
    for sites, cost in placings(plan, margin):
        if level is None or cost < level:
            level, at_level = cost, []
        if cost == level:
            at_level.append(sites)
    if level is None:
        return None
    marks = [reference.reading(point) for point in plan.masts.values()]
    lows, highs = [min(axis) for axis in zip(*marks)], [max(axis) for axis in zip(*marks)]
    inside = [s for s in at_level if all(lows[a] <= site[a] <= highs[a] for site in s for a in (0, 1))]
    largest = [tuple(max(s[p][a] for s in inside) for a in (0, 1)) for p in range(plan.count)]
    assert largest in inside, "no placing has all the largest readings"
    return level, *((s + d, s - d) for s, d in largest)


def chains(plan):
    """Every chain: masts, pillars, terms of its runs."""
    link = lambda p, q: plan.links.get((min(p, q), max(p, q)), reference.NEW)
    for m, n in itertools.permutations(plan.masts, 2):
        for count in range(1, plan.count + 1):
            for way in itertools.permutations(range(plan.count), count):
                ends = [plan.feeders.get((m, way[0]), reference.NEW), plan.feeders.get((n, way[-1]), reference.NEW)]
                yield m, n, way, ends + [link(p, q) for p, q in zip(way, way[1:])]


def right_chains(plan, reach):
    """The frames' bytes behind the kind of every chain that may be named."""
    found = set()
    for m, n, way, terms in chains(plan):
        reaches = [reach(t) for t in terms]
        gap = reference.length(plan.masts[m], plan.masts[n])
        if m < n and None not in reaches and sum(reaches) < gap:
            found.add(bytes([m, n]) + gap.to_bytes(4, "big") + sum(reaches).to_bytes(4, "big") + bytes([len(way), *way]))
    return found


def tiny(rng, count, side):
    """A random yard with coordinates from 0 to `side`."""
    rates = rng.choice([[0], [1], [0, 1], [0, 1, 2, 3], [0, 0, 5], [1, 7]])
    fixeds = rng.choice([[0], [0], [0, 0, 1], range(6)])
    limits = rng.choice([[None], [None, None, 0, 1], [None, 1, 2, 3], range(2 * side + 1)])
    terms = lambda: (rng.choice(rates), rng.choice(fixeds), rng.choice(limits))
    masts = [(rng.randint(0, side), rng.randint(0, side)) for _ in range(rng.randint(1, 5))]
    some = rng.choice([0.4, 0.8, 1])
    feeders = [(m, p, *terms()) for m in range(len(masts)) for p in range(count) if rng.random() < some]
    links = [(p, q, *terms()) for p in range(count) for q in range(p + 1, count) if rng.random() < some]
    return plan_of(count, masts, feeders, links)


def loose_by_chains(plan):
    """The lowest pillar that no chain of tying runs ends at, by trying all chains from one mast."""
    ties = lambda terms: terms[0] > 0 or terms[2] is not None
    link = lambda p, q: ties(plan.links.get((min(p, q), max(p, q)), reference.NEW))
    tied = set()
    for m in plan.masts:
        for count in range(1, plan.count + 1):
            for way in itertools.permutations(range(plan.count), count):
                if ties(plan.feeders.get((m, way[0]), reference.NEW)) and all(link(p, q) for p, q in zip(way, way[1:])):
                    tied.add(way[-1])
    return min(set(range(plan.count)) - tied, default=None)


class TinyYards(unittest.TestCase):
    def try_yards(self, count, side, margin):
        rng = random.Random(f"tiny {count} {side}")
        sorts = collections.Counter()
        for _ in range(TINY):
            plan = tiny(rng, count, side)
            with self.subTest(masts=plan.masts, feeders=plan.feeders, links=plan.links):
                sorts[self.try_yard(plan, margin)] += 1
        told = ", ".join(f"{name} {n}" for name, n in sorted(sorts.items()))
        print(f"pillars {count}, coordinates 0 to {side}: {TINY} yards: {told}")

    def try_yard(self, plan, margin):
        loose = loose_by_chains(plan)
        if loose is not None:
            self.assertEqual(placed(plan), ("refused", 14, loose))
            self.assertEqual(reason(plan), ("refused", 14, loose))
            return "loose"
        best = best_placing(plan, margin)
        (why,) = answers(plan, reference.why)
        if best is None:
            self.assertEqual(placed(plan), ("refused", 15, 0))
            kind, reach = 0x88, compare.limits
        else:
            self.assertEqual(placed(plan), best)
            level = best[0]
            self.assertEqual(right_chains(plan, compare.limits), set())
            if level == 0:
                self.assertEqual(why, b"\x85\x7b")
                return "Floor"
            runs = [(0, m, p) for m in plan.masts for p in range(plan.count)]
            runs += [(1, p, q) for p in range(plan.count) for q in range(p + 1, plan.count)]
            fixed = lambda run: (plan.links if run[0] else plan.feeders).get(run[1:], reference.NEW)[1]
            first = next((run for run in runs if fixed(run) == level), None)
            if first:
                self.assertEqual(why[:-1], bytes([0x86, *first]))
                return "Fixed"
            kind, reach = 0x87, compare.reaches_at(level - 1)
            self.assertEqual(right_chains(plan, compare.reaches_at(level)), set())
        right = right_chains(plan, reach)
        self.assertIn(why[1:-1], right)
        for body in right:  # the comparison accepts each of them
            self.assertIsNone(compare.why_fault(plan, compare.frame(kind, *body) + b"\n"))
        return "Chain" if kind == 0x87 else "Clash"

    def test_one_pillar(self):
        self.try_yards(1, 3, 2)

    def test_two_pillars(self):
        self.try_yards(2, 3, 1)

    def test_two_pillars_with_more_room_around(self):
        self.try_yards(2, 2, 3)

    def test_three_pillars(self):
        self.try_yards(3, 1, 1)


class ComparisonRejects(unittest.TestCase):
    """The comparison takes no chain that breaks one part of the rule."""

    def setUp(self):
        # The chain 0, pillars 0 and 1, 2 has reaches 5 + 2 + 5 at the level below; mast 1 does not stand.
        feeders = [(0, 0, 1, 0, None), (2, 1, 1, 0, None), (3, 0, 0, 0, 100)]
        self.plan = plan_of(3, [(0, 0), (0, 0), (15, 0), (15, 1)], feeders, [(0, 1, 2, 0, None), (1, 2, 0, 0, 3)])
        del self.plan.masts[1]
        self.assertEqual(reference.level_of(self.plan), 6)

    def fault(self, *body):
        return compare.why_fault(self.plan, compare.frame(*body) + b"\n")

    def chain(self, kind=0x87, m=0, n=2, gap=15, total=12, count=None, pillars=(0, 1)):
        number = lambda value: value.to_bytes(4, "big")
        return self.fault(kind, m, n, *number(gap), *number(total), len(pillars) if count is None else count, *pillars)

    def test_a_right_chain_is_taken(self):
        self.assertIsNone(self.chain())

    def test_wrong_chains(self):
        self.assertIn("kind", self.chain(kind=0x88))
        self.assertIn("kind", self.chain(kind=0x86))
        self.assertIn("lower", self.chain(m=2, n=0, pillars=(1, 0)))
        self.assertIn("lower", self.chain(m=0, n=0))
        self.assertIn("stand", self.chain(n=1))
        self.assertIn("stand", self.chain(n=4))
        self.assertIn("gap", self.chain(gap=16))
        self.assertIn("total", self.chain(total=11))
        self.assertIn("count", self.chain(count=3))
        self.assertIn("count", self.chain(count=1))
        self.assertIn("count", self.chain(pillars=()))
        self.assertIn("repeated", self.chain(pillars=(0, 1, 0)))
        self.assertIn("repeated", self.chain(pillars=(0, 3)))
        self.assertIn("not limited", self.chain(pillars=(0,)))
        self.assertIn("not limited", self.chain(pillars=(1, 0)))
        self.assertIn("not limited", self.chain(pillars=(0, 2, 1)))
        self.assertIn("too short", self.chain(n=3, gap=16, total=105, pillars=(0,)))

    def test_lines_that_are_no_frame(self):
        right = reference.why(self.plan)[0].encode()
        self.assertIsNone(compare.why_fault(self.plan, right))
        ends = [right[:-1], right[:-3] + b"00\n", right[:-1] + b"\r\n", right + b"\n"]
        for wrong in ends + [right.lower(), right[:10] + b" " + right[10:], b"", b"\n", b"zz\n", b"817F\n"]:
            self.assertIsNotNone(compare.why_fault(self.plan, wrong), wrong)

    def test_outputs_that_differ(self):
        data = compare.yard_stream(random.Random("outputs"), 3, 4, 3)
        output = reference.serve(data).encode()
        sorts = collections.Counter()
        self.assertIsNone(compare.first_fault(data, output, sorts))
        self.assertEqual(sorts.total(), sum(text in (compare.PLACE, compare.WHY) for text in data.split(b"\n")))
        ends = [output[:-1], output[:-5], output + b"817F\n", output + b"\n"]
        for wrong in ends + [b"", b"\n" + output, output.replace(b"\n", b"\r\n")]:
            self.assertIsNotNone(compare.first_fault(data, wrong, sorts))
        for at in range(len(output)):  # each single byte counts
            changed = bytearray(output)
            changed[at] = ord("0") if changed[at] != ord("0") else ord("1")
            self.assertIsNotNone(compare.first_fault(data, bytes(changed), sorts), at)


if __name__ == "__main__":
    if len(sys.argv) > 1 and sys.argv[1].isdigit():
        TINY = int(sys.argv.pop(1))
    unittest.main()
