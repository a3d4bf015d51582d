"""Lines for `placer`: small yards, each placed and asked why, for the time when it serves Place and Why.

    python3 tools/vectors.py > lines
"""
from full_yard import line, word

NONE = 0xFFFFFFFF


def opened(pillars):
    return line(1, pillars)


def mast(number, x, y):
    return line(2, number, *word(x), *word(y))


def strike(number):
    return line(3, number)


def terms(rate, fixed, limit):
    return *word(rate, 2), *word(fixed), *word(limit)


def feeder(number, pillar, rate=0, fixed=0, limit=NONE):
    return line(4, number, pillar, *terms(rate, fixed, limit))


def link(one, other, rate=0, fixed=0, limit=NONE):
    return line(5, one, other, *terms(rate, fixed, limit))


ASK = [line(6), line(7)]
TEN_APART = [mast(0, 0, 0), mast(1, 10, 0)]

YARDS = {
    # two masts ten steps apart
    "two_rates": [opened(1), *TEN_APART, feeder(0, 0, 3), feeder(1, 0, 2), *ASK],
    # the middle of a square is better than any crossing
    "four_corners": [opened(1), *[mast(m, m % 2, m // 2) for m in range(4)], *[feeder(m, 0, 1) for m in range(4)], *ASK],
    "clashing_limits": [opened(1), *TEN_APART, feeder(0, 0, limit=4), feeder(1, 0, limit=5), *ASK],
    "limits_that_just_meet": [opened(1), *TEN_APART, feeder(0, 0, limit=5), feeder(1, 0, limit=5), *ASK],
    "two_pillars_in_a_row": [opened(2), mast(0, 0, 0), mast(1, 12, 0), feeder(0, 0, 1), feeder(1, 1, 1), link(0, 1, 2), *ASK],
    "fixed_price_alone": [opened(1), mast(0, 7, -2), feeder(0, 0, 5, 100), *ASK],
    # the largest sum and difference in the field, outside the masts' own x
    "one_far_limit": [opened(1), mast(0, 0, 0), mast(1, 10, 0), mast(2, 0, 10), mast(3, 10, 10), feeder(0, 0, limit=200_000), *ASK],
    "largest_prices": [opened(1), mast(0, -50_000, -50_000), mast(1, 50_000, 50_000), *[feeder(m, 0, 10_000, 1_000_000_000) for m in (0, 1)], *ASK],
    # no mast; then a pillar that nothing ties; then one that only a link ties
    "not_ready": [opened(3), *ASK, mast(5, 1, 1), *ASK, feeder(5, 0, 1), link(0, 2, limit=0), *ASK, link(2, 1, 0, 7), *ASK, link(1, 2, 1), *ASK],
    # a struck mast's terms do not come back, a moved mast keeps its own
    "struck_and_raised": [opened(1), *TEN_APART, feeder(0, 0, 3), feeder(1, 0, 2), strike(1), *ASK, mast(1, 10, 0), *ASK, mast(0, 4, 0), *ASK],
    # a run that ties nothing still puts its fixed price into the level, and the first of equals is named
    "idle_fixed_price": [opened(2), mast(3, 0, 0), mast(8, 6, 0), feeder(3, 0, 1), feeder(8, 1, 1), link(1, 0, 1), feeder(8, 0, 0, 90), feeder(3, 1, 0, 90), *ASK],
    # a level above every fixed price; the masts are told by number, the pillars from the lower one on
    "chain_turned": [opened(3), mast(30, 0, 0), mast(4, 40, 0), feeder(30, 2, 2), link(2, 0, 3), link(1, 0, 1, 5), feeder(4, 1, 4, 11), *ASK],
    # the sites are the largest at the common level: the difference is not held by this axis's own least level
    "one_level_for_both": [opened(1), mast(0, 0, 0), mast(1, 10, 10), mast(2, 1, -1), *[feeder(m, 0, 1) for m in range(3)], *ASK],
    "mast_on_mast": [opened(2), mast(0, 5, 5), mast(39, 5, 5), feeder(0, 0, 1), feeder(39, 1, 1), link(0, 1, 1), *ASK],
}

if __name__ == "__main__":
    print("\n".join(one for lines in YARDS.values() for one in lines))
