"""Cases for the job program and the grid program: files, and what the rules make these programs print over them.

The choice among several cheapest routes is free, and may alter amounts and counts. A file is a case only if every permitted run prints the same
lines, as planner.forced finds out; random files of which it does not are left out, and a file made by hand of which it does not is an error.

    python3 second/cases.py count     how many cases there are, with what they hold and the time it took
    python3 second/cases.py show N    case N: its listing and what is printed
    python3 second/cases.py write     write the stdin and stdout of the programs job, worked and run_cases
    python3 second/cases.py check     fail where one of these files is not what it writes
"""

import random
import sys
import time
from collections import Counter

sys.dont_write_bytecode = True

import jobfile
import planner
import worked
from jobfile import GRID, JOB, build, record

MILLION = 1_000_000


def job(places, ways, *calls):
    """A job file; a call without numbers may be given as its bare name."""
    return build(("head", places, len(ways)), *(("way", *way) for way in ways), *((c,) if isinstance(c, str) else c for c in calls))


def grid(groups, lasts):
    """A grid file: the groups, then the lasts."""
    return build(*(("group", *g) for g in groups), *(("last", *x) for x in lasts))


# Files that are faulty, or hold next to nothing


def small_files():
    for form in (JOB, GRID):
        yield form, b""
        yield form, b"\x00"
        yield form, b"\x0a"
        yield form, jobfile.TWO_STUDIES
        yield form, jobfile.ONE_GROUP
        for kind in range(1, 10):
            yield form, bytes([kind])
    for places in (0, 1, 2):
        yield JOB, job(places, [])
        yield JOB, job(places, [], "route", ("settle", 1), "total", "prices", ("book", 0, 1, 1), ("settle", 0), ("settle", 9), "total")


def damaged_files():
    dice = random.Random(31)
    whole = [(JOB, jobfile.TWO_STUDIES), (GRID, jobfile.ONE_GROUP), (GRID, grid([(2500, 1), (2600, 0), (2700, 4)], [(2550, 3), (2650, 3)]))]
    for form, file in whole:
        for end in range(0, len(file), 7):
            yield form, file[:end]
        for _ in range(25):
            yield form, jobfile.damaged(dice, file)
        for _ in range(10):
            yield form, jobfile.damaged(dice, jobfile.damaged(dice, file))


def long_files():
    """60,000 bytes, and one more."""
    ways = [(0, 1, 1 + k % 5, 0, 10 * k) for k in range(3000)]
    file = job(2, ways, *[("book", 0, 1, 1)] * 998, ("settle", 100), ("settle", MILLION), *["total"] * 3)
    file += record("total") * (jobfile.LONGEST - len(file))
    assert len(file) == jobfile.LONGEST
    yield JOB, file
    yield JOB, file + record("total")
    rows = (record("group", 1, 0) + record("last", 1, 0)) * 4286
    for end in (jobfile.LONGEST // 7 * 7, jobfile.LONGEST, jobfile.LONGEST + 1):
        yield GRID, rows[:end]


# Openings


def numbers_of_places():
    for places in (0, 1, 2, 1023, 1024, 1025, 2**16 - 1):
        last = max(places - 1, 0)
        yield JOB, job(places, [], ("book", 0, last, 5), ("book", last, 0, 2), ("book", places % 2**16, 0, 1), "route", ("settle", 3), "total")
        if places > 1:
            yield JOB, job(places, [(0, last, 7, 0, 1), (last, 0, 7, 1, 0)], ("book", 0, last, 5), ("book", last, 1, 1), ("settle", 3), "total")
    yield JOB, job(1024, [(1023, 0, 7, -1, 5)], ("book", 1023, 0, 5), "route", "prices")


def numbers_of_ways():
    calls = (("book", 0, 1, 1), "route", ("settle", 5), "total", "prices")
    for ways in (3000, 3001):
        yield JOB, job(3, [(0, 1, 1, 0, 0)] * ways, *calls)
    yield JOB, job(1025, [(0, 1, 1, 0, 0)] * 3001, *calls)
    yield JOB, job(2, [(9, 9, 2**32 - 1, 0, 0)] * 3001, *calls)


GOOD = (0, 1, 5, 0, 1)
BAD_WAYS = {
    3: ((3, 0, 1, 0, 0), (0, 3, 1, 0, 0), (2**16 - 1, 2**16 - 1, MILLION + 1, 2**31 - 1, 0)),
    4: ((1, 1, 1, 0, 0), (2, 2, MILLION + 1, 0, 0), (0, 0, 0, 0, MILLION + 1)),
    5: ((0, 1, MILLION + 1, 0, 0), (1, 0, 2**32 - 1, -(2**31), 0)),
    6: ((0, 1, 1, MILLION + 1, 0), (0, 1, 1, -MILLION - 1, 0), (0, 1, 0, 0, MILLION + 1), (2, 1, MILLION, 0, -(2**31)), (1, 2, 0, 2**31 - 1, 5)),
}


def bad_ways():
    calls = (("book", 0, 1, 1), ("settle", 1), "route", "total", "prices")
    for ways in BAD_WAYS.values():
        for way in ways:
            yield JOB, job(3, [way], *calls)
            yield JOB, job(3, [GOOD] * 4 + [way])
            yield JOB, job(3, [GOOD, way] + [ways[0] for ways in BAD_WAYS.values()], "total")
            yield JOB, job(3, [ways[-1] for ways in BAD_WAYS.values()] + [way], "total")
    losing = [(0, 1, 1, 0, -1), (1, 0, 1, 0, 0)]
    yield JOB, job(3, losing + [(0, 1, 1, 0, MILLION + 1)], *calls)
    yield JOB, job(3, losing, *calls)


def ways_at_bound():
    calls = (("book", 0, 1, MILLION), "route", "prices", ("settle", 5), "total", "prices")
    for redraws in (-MILLION, -1, 0, MILLION):
        for misfit in (-MILLION, 0, 1, MILLION):
            yield JOB, job(2, [(0, 1, MILLION, redraws, misfit)], *calls)
    line = [(v, v + 1, MILLION, MILLION, -MILLION) for v in range(1023)]
    yield JOB, job(1024, line, ("book", 0, 1023, MILLION), ("book", 0, 1023, MILLION), ("settle", 5), "total", "prices")
    line = [(v + 1, v, MILLION, -MILLION, MILLION) for v in range(1023)]
    yield JOB, job(1024, line, ("book", 1023, 0, MILLION), ("settle", 5), "total", "prices")


# Rings


def ring(first, costs, limit=1):
    """Ways round, from the first place on, one for each cost."""
    n = len(costs)
    return [(first + i, first + (i + 1) % n, limit, *cost) for i, cost in enumerate(costs)]


def rings():
    calls = (("book", 0, 1, 1), ("settle", 4), "total", "prices")
    for back in (-5, -4, -3, -2, 3):
        yield JOB, job(2, ring(0, [(0, 3), (0, back)]), *calls)
        yield JOB, job(2, ring(0, [(3, -9), (back, 9)]), *calls)
        yield JOB, job(9, [(0, 1, 2, 0, 1), (7, 5, 1, 0, -9)] + ring(4, [(0, 1), (0, 2), (0, back)]), *calls)
        yield JOB, job(7, [(0, 1, 1, 0, 0), (2, 0, 1, 0, 0)] + ring(2, [(0, 1), (0, 1), (0, 1), (0, back)]), *calls)
    for shut in (0, 1):
        ways = ring(0, [(0, 3), (0, -4)])
        ways[shut] = ways[shut][:2] + (0,) + ways[shut][3:]
        yield JOB, job(2, ways, *calls)
        yield JOB, job(2, ways + [(1 - shut, shut, 1, 9, 9)], *calls)
        yield JOB, job(2, ways + [ring(0, [(0, 3), (0, -4)])[1 - shut]], *calls)


def rings_of_pairs():
    """Rings whose two parts have different signs, and rings that share a place."""
    calls = (("book", 2, 0, 1), ("settle", 4), "total", "prices")
    for costs in (
        [(1, -9), (-1, 9)],
        [(1, -9), (-1, 8)],
        [(0, -9), (1, 0)],
        [(-1, MILLION), (0, MILLION)],
        [(0, 0), (0, 0), (0, 0)],
        [(0, 5), (0, -2), (0, -3)],
        [(0, 5), (0, -2), (0, -4)],
        [(5, 0), (-2, 1), (-3, -2)],
        [(MILLION, -MILLION), (-MILLION, MILLION)],
        [(MILLION, -MILLION), (-MILLION, MILLION - 1)],
    ):
        yield JOB, job(3, ring(0, costs), *calls)
        yield JOB, job(3, ring(0, costs) + [(2, 0, 3, 1, -1)], *calls)
    for last in (-7, -6, -5):
        yield JOB, job(5, ring(0, [(0, 2), (0, 2), (0, -4)]) + [(2, 3, 1, 0, 1), (3, 4, 1, 0, 5), (4, 2, 1, 0, last)], *calls)


def long_rings():
    for end in (-1024, -1023, -1022):
        for shut in (0, 1):
            ways = ring(0, [(0, 1)] * 1023 + [(0, end)], 2)
            ways[500] = ways[500][:2] + (2 - 2 * shut,) + ways[500][3:]
            if shut == 0 or end == -1024:
                yield JOB, job(1024, ways, ("book", 3, 2, 3), ("settle", 9), "total", *(["prices"] if end == -1023 else []))


# Bookings and budgets


def refused_bookings():
    ways = [(0, 1, 9, 0, 1), (1, 2, 9, 0, 1)]
    for start in (0, 2, 3, 2**16 - 1):
        for end in (0, 2, 3, 2**16 - 1):
            for amount in (0, 1, MILLION + 1):
                yield JOB, job(3, ways, ("book", start, end, amount), ("settle", 5), "total")
    for amount in (1, MILLION, 2**32 - 1):
        yield JOB, job(3, ways, ("book", 2, 0, amount), ("book", 0, 2, amount), ("settle", 5), "total", "route")


def rest_bound():
    """A thousand bookings of a million, then one more of one at each end; and once some has been sent."""
    full = [("book", 0, 1, MILLION)] * 1000
    more = (("book", 0, 2, 1), ("book", 2, 1, 1), ("book", 0, 1, MILLION), ("book", 0, 1, 0), ("book", 0, 1, MILLION + 1), ("book", 0, 0, 1))
    yield JOB, job(3, [(0, 1, 5, 0, 1)], *full, *more, ("book", 1, 0, 1), *more, ("settle", 9), *more, ("book", 0, 1, 6), ("book", 0, 1, 1), "total")
    yield JOB, job(3, [(2, 1, MILLION, 0, 1)], *full, ("book", 2, 0, 7), ("book", 2, 1, 1), ("settle", 9), "total", ("book", 2, 1, 1), "route")
    yield JOB, job(3, [(0, 1, MILLION, 0, 1)], *full[:-1], ("book", 0, 1, MILLION - 1), ("book", 0, 1, 2), ("book", 0, 1, 1), "route", ("settle", 9))


def cancelled_bookings():
    ways = [(0, 1, 9, 0, 1), (1, 2, 9, 0, 1), (2, 0, 9, 1, 0)]
    yield JOB, job(3, ways, ("book", 0, 1, 5), ("book", 1, 0, 5), "route", ("settle", 1), "total", "prices")
    yield JOB, job(3, ways, ("book", 0, 1, 5), ("book", 1, 2, 5), ("book", 2, 0, 5), ("settle", 1), "total")
    yield JOB, job(3, ways, ("book", 0, 1, 5), ("settle", 9), ("book", 1, 0, 5), ("settle", 9), "total", "prices")
    back = (("book", 2, 0, 3), ("settle", 9), "total", "prices", ("book", 2, 0, 2), ("settle", 9), "total")
    yield JOB, job(3, ways, ("book", 0, 2, 5), "route", *back)


def budgets():
    ways = [(0, 1, 1, 0, 1), (0, 1, 1, 0, 2), (0, 1, 1, 0, 4), (0, 1, 1, 1, 0)]
    for amount in (3, 4, 5):
        for budget in (0, 1, 2, 3, 4, 5, MILLION, MILLION + 1, 2**32 - 1):
            yield JOB, job(2, ways, ("book", 0, 1, amount), ("settle", budget), "total", "prices", ("settle", budget), "total", "route")
    yield JOB, job(2, ways, ("settle", 0), ("settle", 1), ("settle", MILLION), ("settle", MILLION + 1))
    yield JOB, job(2, ways, ("book", 0, 1, 5), *["route", "total"] * 6, "prices", ("settle", 1), ("book", 1, 0, 5), ("settle", 1), "total")


# Routes


def ties():
    """Equal costs, where the choice alters nothing that is printed."""
    star = [(0, v, 2, 0, 3) for v in (4, 2, 3, 1)]
    yield JOB, job(5, star, ("book", 0, 3, 2), ("book", 0, 4, 1), ("book", 0, 2, 2), "route", "route", "route", "route", "total", "prices")
    yield JOB, job(5, star, ("book", 0, 4, 3), ("book", 0, 1, 2), "route", "route", "route", "total", "prices")
    twin = [(0, 1, 1, 0, 3), (0, 1, 1, 0, 3), (0, 1, 1, 0, 3)]
    yield JOB, job(2, twin, ("book", 0, 1, 4), "route", "total", "prices", ("settle", 9), "total", "prices")
    wide = [(0, 1, 4, 0, 3), (0, 2, 4, 0, 3), (1, 3, 4, 0, 3), (2, 3, 4, 0, 3)]
    yield JOB, job(4, wide, ("book", 0, 3, 4), "route", ("book", 0, 3, 4), ("settle", 9), "total", "prices", ("book", 0, 3, 1), "route")
    for misfit in (-1, 0, 1):
        yield JOB, job(3, [(0, 1, 5, 0, 0), (0, 2, 5, 0, misfit), (1, 2, 5, 0, 0)], ("book", 0, 2, 1), ("book", 0, 1, 1), "route", "route", "total")
        yield JOB, job(3, [(0, 2, 5, 0, 9), (0, 1, 5, misfit, 0)], ("book", 0, 2, 1), ("book", 0, 1, 1), "route", "route", "total", "prices")
    zero = [(v, w, 1, 0, 0) for v in range(5) for w in range(5) if v != w]
    yield JOB, job(5, zero, *[("book", v, (v + 2) % 5, v + 1) for v in range(5)], ("settle", 99), "total", "prices", ("book", 4, 0, 9), ("settle", 9))


def backward_steps():
    """Chains in which each new booking pushes the one before on to a dearer way."""
    for n in (2, 3, 5, 8, 20):
        ways = [(i, n + i, 3, 0, i + 1) for i in range(n)] + [(i, n + i + 1, 3, 1, 7) for i in range(n)]
        ways += [(n + i, 2 * n + 1, 3, 0, 0) for i in range(n + 1)]
        calls = [call for i in range(n) for call in (("book", i, 2 * n + 1, 3), "route", "total")]
        yield JOB, job(2 * n + 2, ways, *calls, "prices")
        turned = [call for i in reversed(range(n)) for call in (("book", i, 2 * n + 1, 2), ("settle", 50), "total")]
        yield JOB, job(2 * n + 2, ways[: 2 * n] + [(t, h, 2, r, m) for t, h, _, r, m in ways[2 * n :]], *turned, "prices")
        shut = ways[:n] + ways[n : 2 * n - 1] + [(n, 2 * n + 1, 3, 0, 0)]
        yield JOB, job(2 * n + 2, shut, *calls, "prices", ("settle", 9))
    crossed = [(0, 2, 1, 0, 1), (0, 3, 1, 0, 9), (1, 2, 1, 0, 1), (2, 4, 1, 0, 0), (3, 4, 1, 0, 0)]
    yield JOB, job(5, crossed, ("book", 0, 4, 1), "route", ("book", 1, 4, 1), "route", "total", "prices", ("book", 1, 4, 1), "route")


def blocked_ends():
    ways = [(0, 3, 2, 0, 1), (1, 3, 2, 0, 1), (2, 4, 2, 0, 1)]
    for first, second, third in ((2, 2, 2), (3, 2, 2), (2, 3, 2), (1, 1, 3)):
        books = (("book", 2, 4, third), ("book", 1, 3, second), ("book", 0, 3, first))
        yield JOB, job(5, ways, *books, ("settle", 9), "total", "prices", ("settle", 9), "route", ("book", 3, 0, 1), ("settle", 9), "total")
    yield JOB, job(5, ways, ("book", 3, 0, 1), ("settle", 9), "route", "total", ("book", 0, 3, 1), ("settle", 9), "total")
    more = (("settle", 9), ("book", 0, 3, 1), ("settle", 9), "total", ("book", 2, 3, 1), "route")
    yield JOB, job(5, ways, ("book", 0, 4, 1), ("book", 2, 4, 1), *more)
    yield JOB, job(3, [], ("book", 2, 1, 4), ("book", 1, 0, 4), "route", ("settle", 2), "total", "prices", ("book", 0, 2, 4), ("settle", 2))


def after_refused_opening():
    calls = ("route", ("book", 0, 1, 1), ("book", 9, 9, 0), ("settle", 0), ("settle", 1), "total", "prices")
    for file in (job(0, [], *calls), job(1025, [], *calls), job(2, [(0, 2, 1, 0, 0)], *calls), job(2, ring(0, [(0, 3), (0, -4)]), *calls)):
        yield JOB, file


# Random jobs


def tiny_calls(dice, places, most):
    calls = []
    for _ in range(dice.randint(1, 4)):
        for _ in range(dice.randint(0, 3)):
            start, end = dice.sample(range(places), 2) if dice.random() < 0.9 else (dice.randint(0, places), dice.randint(0, places))
            calls.append(("book", start, end, dice.randint(1, most)))
        calls.append(dice.choice((("settle", 100), ("settle", 100), ("settle", dice.randint(0, 3)), ("route",))))
        calls += dice.sample((("total",), ("prices",), ("route",)), dice.randint(0, 3))
    return calls + [("total",), ("prices",)]


def tiny_jobs(seed, number, most_limit, most_amount):
    """With limits and amounts up to these."""
    dice = random.Random(seed)
    for _ in range(number):
        places = dice.randint(2, 7)
        net = planner.random_network(dice, places, dice.randint(1, 2 * places + 2))
        ways = [(way.tail, way.head, min(way.limit, most_limit), *way.cost) for way in net.ways]
        yield JOB, job(places, ways, *tiny_calls(dice, places, most_amount))


def matchings():
    """Everything goes one by one, so that equal costs alter nothing that is printed."""
    dice = random.Random(7)
    for n, most in ((3, 1), (4, 2), (6, 3), (10, 2), (10, 30), (20, 5)):
        for share in (1.0, 0.5):
            ways = [(i, n + j, 1, dice.choice((0, 0, 1)), dice.randint(0, most)) for i in range(n) for j in range(n) if dice.random() < share]
            order = dice.sample(range(n), n)
            books = [("book", i, n + order[i], 1) for i in dice.sample(range(n), n)]
            yield JOB, job(2 * n, ways, *books, ("settle", n // 2), "total", "prices", ("settle", MILLION), "total", "prices")


def sloped_ways(dice, places, number, most_limit):
    """Random ways of any sign of cost without a losing ring: a cost of zero or more and the difference of two heights."""
    heights = [(dice.randint(-2, 2), dice.randint(-300_000, 300_000)) for _ in range(places)]
    ways = []
    for _ in range(number):
        tail, head = dice.sample(range(places), 2)
        redraws = dice.choice((0, 0, 0, 1)) + heights[head][0] - heights[tail][0]
        misfit = dice.randint(1, 400_000) + heights[head][1] - heights[tail][1]
        ways.append((tail, head, dice.randint(1, most_limit), redraws, misfit))
    return ways


def some_books(dice, places, number, most):
    return [("book", *dice.sample(range(places), 2), dice.randint(1, most)) for _ in range(number)]


def middling_jobs():
    dice = random.Random(11)
    for _ in range(60):
        places, most = dice.randint(8, 40), dice.choice((5, 1000, MILLION))
        ways = sloped_ways(dice, places, dice.randint(2, 6) * places, most)
        calls = []
        for _ in range(dice.randint(1, 4)):
            calls += some_books(dice, places, dice.randint(1, 5), most)
            calls += [dice.choice(("route", ("settle", 2))), "total", ("settle", MILLION), "total", "prices"]
        yield JOB, job(places, ways, *calls)


def large_jobs():
    dice = random.Random(13)
    for places, number in ((1024, 3000), (300, 3000), (1024, 1500)):
        ways = sloped_ways(dice, places, number, MILLION)
        calls = some_books(dice, places, 8, MILLION) + ["route", ("settle", 3), ("settle", MILLION), "total"]
        yield JOB, job(places, ways, *calls, "prices", *some_books(dice, places, 4, MILLION), ("settle", MILLION), "total")
    every = [(v, w) for v in range(55) for w in range(55) if v != w]
    heights = [dice.randint(0, 90_000) for _ in range(55)]
    ways = [(v, w, dice.randint(1, 999), 0, dice.randint(0, 900_000) + heights[w] - heights[v]) for v, w in every]
    yield JOB, job(55, ways, *some_books(dice, 55, 20, 5000), ("settle", MILLION), "total", "prices")
    ways = sloped_ways(dice, 1024, 2990, MILLION)
    v, w = ways[2000][:2]
    yield JOB, job(1024, ways + [(w, v, 1, -ways[2000][3], -ways[2000][4] - 1)], "total")
    yield JOB, job(1024, ways + [(w, v, 0, -ways[2000][3], -ways[2000][4] - 1)], ("book", v, w, 1), "route", "total")


# Grids


def bare_grids():
    yield GRID, grid([], [])
    for counts in ([0], [1], [MILLION], [MILLION + 1], [2**32 - 1], [0, 0], [0, 3, 0], [5, 0, MILLION + 1, 7]):
        yield GRID, grid([(2600 + i, count) for i, count in enumerate(counts)], [])
        yield GRID, grid([], [(2600 + i, count) for i, count in enumerate(counts)])
    for length in (0, 1, 2600, 2**16 - 1):
        for last in (0, 2599, 2**16 - 1):
            yield GRID, grid([(length, 3)], [(last, 4)])
            yield GRID, grid([(length, 3)], [(last, 2)])
    for count in (0, 1, MILLION, MILLION + 1):
        for stock in (0, 1, MILLION, MILLION + 1):
            yield GRID, grid([(2600, count)], [(2650, stock)])


def large_grids():
    """At the bounds on places and ways, and past the 1,024 records that count."""
    for groups in (1022, 1023, 1024, 1025, 1030):
        yield GRID, grid([(i, i % 2) for i in range(groups)], [])
        yield GRID, grid([], [(i, i % 2) for i in range(groups)])
    yield GRID, grid([(i, MILLION) for i in range(1003)], [])
    yield GRID, grid([(i, 1 + (i > 1023)) for i in range(1026)], [(5, 9)] * 1026)
    yield GRID, build(*[row for i in range(1025) for row in (("last", i, 1), ("group", i, i == 1000 or i == 1024))])
    for groups, lasts in ((1022, 1), (59, 50), (49, 60), (78, 38), (600, 5), (1, 1022), (1, 1023)):
        count = 1 if groups < 100 else 0
        yield GRID, grid([(2000 + 3 * i, count) for i in range(groups)], [(2001 + 4 * j, 1) for j in range(lasts)])
    yield GRID, grid([(2600, 1000)], [(30 * j, 1) for j in range(1022)])


def mixed_grids():
    for count in (0, 1, 2, MILLION, MILLION + 1):
        for stock in (0, 1, 2, MILLION, MILLION + 1):
            yield GRID, grid([(2600, 2), (2610, count), (2605, 1)], [(2650, 9), (2550, stock), (2500, 9)])
            yield GRID, grid([(2540, 2), (2700, count)], [(2650, stock), (2550, 4)])


def random_grids():
    dice = random.Random(19)
    for _ in range(160):
        spread, most = dice.choice((3, 40, 2**16 - 1)), dice.choice((1, 1, 2, 5, MILLION))
        rows = [("group", dice.randint(0, spread), dice.randint(0, most)) for _ in range(dice.randint(0, 5))]
        rows += [("last", dice.randint(0, spread), dice.randint(0, dice.choice((1, 5, most)))) for _ in range(dice.randint(0, 5))]
        dice.shuffle(rows)
        yield GRID, build(*rows)
    for _ in range(12):
        rows = [("group", dice.randint(2200, 2900), 1) for _ in range(dice.randint(10, 40))]
        rows += [("last", dice.randint(2200, 2900), dice.randint(0, 4)) for _ in range(dice.randint(5, 30))]
        dice.shuffle(rows)
        yield GRID, build(*rows)


# All of them

BY_HAND = (
    small_files,
    long_files,
    numbers_of_places,
    numbers_of_ways,
    bad_ways,
    ways_at_bound,
    rings,
    rings_of_pairs,
    long_rings,
    refused_bookings,
    rest_bound,
    cancelled_bookings,
    budgets,
    ties,
    backward_steps,
    blocked_ends,
    after_refused_opening,
    matchings,
    large_jobs,
    bare_grids,
    large_grids,
)
RANDOM = (
    damaged_files,
    lambda: tiny_jobs(1, 200, 4, 4),
    lambda: tiny_jobs(2, 60, 1, 5),
    lambda: tiny_jobs(3, 60, 3, 1),
    middling_jobs,
    mixed_grids,
    random_grids,
)


def checked(job):
    """The lines that every permitted run prints, None if they differ; one run is checked to be least, if it is small by the optimum too."""
    lines = planner.forced(job)
    small = job.net.places <= 40 and len(job.net.ways) <= 250
    if lines is not None:
        run, _ = planner.check_run(job, optimum=small)
        assert run == lines
    return lines


def cases():
    """Triples of a form, a file and what is printed, each file once for its form."""
    met = set()
    for some in BY_HAND + RANDOM:
        for form, file in some():
            if (form, file) in met:
                continue
            met.add((form, file))
            text = planner.printed(form, file, checked)
            assert text is not None or some in RANDOM, (some.__name__, len(met), len(file))
            if text is not None:
                yield form, file, text


def ends(text):
    """The kinds of lines in an output, for counting."""
    for line in text.split("\n")[:-1]:
        words = line.split(" ")
        yield " ".join(words[:2]) if words[0] in ("file", "refused") else " ".join(w for w in words if w.isalpha())


def count():
    begun, number, size, printed, lines = time.monotonic(), Counter(), 0, 0, Counter()
    for form, file, text in cases():
        number[form] += 1
        size += len(file)
        printed += len(text)
        lines.update(set(ends(text)))
    print(f"{sum(number.values())} cases: {number[JOB]} jobs and {number[GRID]} grids")
    print(f"{size} bytes of files, {printed} bytes printed, {time.monotonic() - begun:.0f} s")
    print("cases with a line: " + ", ".join(f"{name} {n}" for name, n in sorted(lines.items())))


def show(number):
    form, file, text = next(case for i, case in enumerate(cases()) if i == number)
    print(jobfile.listing(form, file) + "--\n" + text, end="")


def programs():
    """What the programs are run on, and what they must print. No program runs a grid yet."""
    all_cases = [case for case in cases() if case[0] == JOB]
    example = {JOB: jobfile.TWO_STUDIES}
    files = {f"crates/{form}/stdin": file for form, file in example.items()}
    files |= {f"crates/{form}/stdout": planner.printed(form, file, checked).encode() for form, file in example.items()}
    files["crates/worked/stdout"] = ("\n".join(worked.lines()) + "\n").encode()
    files["crates/run_cases/stdin"] = b"".join(jobfile.case_bytes(form, file) for form, file, _ in all_cases)
    files["crates/run_cases/stdout"] = "".join(f"case {i}\n{text}" for i, (_, _, text) in enumerate(all_cases)).encode()
    return files


def main(arguments):
    if arguments == ["write"]:
        jobfile.write(programs())
    elif arguments == ["check"]:
        return jobfile.check(programs())
    elif arguments == ["count"]:
        count()
    elif len(arguments) == 2 and arguments[0] == "show":
        show(int(arguments[1]))
    else:
        sys.stderr.write(__doc__)
        return 2
    return 0


if __name__ == "__main__":
    sys.exit(main(sys.argv[1:]))
