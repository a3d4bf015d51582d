"""Lines for `placer`: the largest yard, 40 masts and 12 pillars with all 546 runs priced, and then some calls of Place.

    python3 tools/full_yard.py SEED PLACES [MASTS PILLARS] > lines
"""
import random
import sys


def line(*data):
    frame = bytes(data)
    return (frame + bytes([-sum(frame) % 256])).hex().upper()


def word(n, size=4):
    return n.to_bytes(size, "big", signed=n < 0)


def yard(seed, masts=40, pillars=12):
    r = random.Random(seed)

    def terms():
        limit = r.randint(60_000, 200_000) if r.random() < 0.2 else 0xFFFFFFFF
        return *word(r.randint(1, 10_000), 2), *word(r.randint(0, 100_000_000)), *word(limit)

    yield line(1, pillars)
    for m in range(masts):
        yield line(2, m, *word(r.randint(-50_000, 50_000)), *word(r.randint(-50_000, 50_000)))
    for m in range(masts):
        for p in range(pillars):
            yield line(4, m, p, *terms())
    for p in range(pillars):
        for q in range(p + 1, pillars):
            yield line(5, p, q, *terms())


if __name__ == "__main__":
    seed, places, *size = map(int, sys.argv[1:])
    print("\n".join([*yard(seed, *size), *[line(6)] * places]))
