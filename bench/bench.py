"""The program job beside two other solvers of minimum-cost flows: how long each takes, and whether all find the same least cost.

    python3 bench/bench.py                   run crates/job/out/job, dimacs-solver and glpsol, and print the table
    python3 bench/bench.py --job PATH        run another build of the program
    python3 bench/bench.py --only sparse     run the instances whose name has this word
    python3 bench/bench.py --runs 1          time each program once and not three times
    python3 bench/bench.py --keep DIRECTORY  leave the files there, each instance as .job and as .min

Each instance is a job file close to the bounds of the format: ways, bookings to the last byte that fits, one settle and the total. The same
network and the same bookings, netted place by place, are written in the DIMACS format of minimum-cost flows. The instances are the same on each
run: they come from fixed seeds. Every booking is first put along a route of the fewest steps, and no limit is made smaller than what then lies on
the way. So some load meets the bookings, and job must end settled.

Exit: 0 all agree; 1 a least cost differs, or a program failed; 2 the arguments, or the program job, are not there.
"""

import argparse
import random
import re
import shutil
import subprocess
import sys
import tempfile
import time
from collections import deque, namedtuple
from pathlib import Path

sys.dont_write_bytecode = True

ROOT = Path(__file__).resolve().parent.parent
sys.path.insert(0, str(ROOT / "second"))

from jobfile import LONGEST, build

MOST_LIMIT, MOST_BUDGET = 1_000_000, 1_000_000
END = (("settle", MOST_BUDGET), ("total",))

# What one redraw is worth where a solver has single numbers. A load is least exactly if no ring of steps costs less than zero. A ring has at most
# 1,024 steps, and a misfit is below 900 wherever redraws are not all 0, so a ring's misfits never sum up to one redraw.
REDRAW = 1_000_000

Way = namedtuple("Way", "tail head limit redraws misfit")
Instance = namedtuple("Instance", "name places ways books")
Run = namedtuple("Run", "seconds total answer", defaults=(None,))
Answer = namedtuple("Answer", "count redraws misfit")


# Networks: pairs of places, without limits and costs


def sparse_pairs(dice, places, number):
    """A ring through all places in random order, so that each reaches all; then random pairs."""
    order = dice.sample(range(places), places)
    pairs = list(zip(order, order[1:] + order[:1]))
    return pairs + [tuple(dice.sample(range(places), 2)) for _ in range(number - places)]


def layered_pairs(layers, width):
    """From each place of a layer to three neighbours in the next, around a drum."""
    return [
        (layer * width + i, (layer + 1) * width + (i + side) % width) for layer in range(layers - 1) for i in range(width) for side in (-1, 0, 1)
    ]


def chain_pairs(places):
    """Two ways from each place to the next, the last ones first: a round of relaxing all ways in order then gets one place further."""
    return [(v, v + 1) for v in reversed(range(places - 1)) for _ in range(2)]


def dense_pairs(places):
    return [(v, w) for v in range(places) for w in range(places) if v != w]


def sizes(dice, number):
    return [dice.randint(2200, 3000) for _ in range(number)]


def nearest_pairs(feet, lasts, number):
    """From each group of feet to the lasts nearest in length; the lasts are numbered after the groups."""
    pairs = []
    for i, foot in enumerate(feet):
        near = sorted(range(len(lasts)), key=lambda j: (abs(lasts[j] - foot), j))[:number]
        pairs += [(i, len(feet) + j) for j in near]
    return pairs


# Bookings, and a load that meets them


def room_for_books(ways):
    """How many bookings still fit in the file."""
    used = len(build(("head", 0, 0), *END)) + ways * len(build(("way", 0, 0, 0, 0, 0)))
    return (LONGEST - used) // len(build(("book", 0, 0, 0)))


def leaving_ways(places, pairs):
    leaving = [[] for _ in range(places)]
    for k, (tail, head) in enumerate(pairs):
        leaving[tail].append((k, head))
    return leaving


def fewest_steps(leaving, start):
    """For each place that is reached, the way by which it is, and the place before it."""
    before, waiting = {start: None}, deque([start])
    while waiting:
        v = waiting.popleft()
        for k, w in leaving[v]:
            if w not in before:
                before[w] = (k, v)
                waiting.append(w)
    return before


def book(dice, leaving, load, start, ends, amount):
    """One booking from the start to some reached end, put on the load."""
    before = fewest_steps(leaving, start)
    end = dice.choice([v for v in ends if v in before and v != start])
    place = end
    while before[place] is not None:
        k, place = before[place]
        load[k] += amount
    return start, end, amount


def booked(dice, places, pairs, starts, ends, most):
    """As many bookings as fit, and a load that meets them."""
    leaving, load = leaving_ways(places, pairs), [0] * len(pairs)
    books = [book(dice, leaving, load, dice.choice(starts), ends, dice.randint(1, most)) for _ in range(room_for_books(len(pairs)))]
    return books, load


# Limits and costs


def tight(dice, x):
    """A little more than what lies on the way."""
    return x + dice.randint(0, 9)


def wide(dice, x):
    return MOST_LIMIT


def any_cost(dice, tail, head):
    return 0, dice.randint(1, 900_000)


def redraw_cost(dice, tail, head):
    return dice.choice((0, 0, 0, 1)), dice.randint(0, 899)


def made(name, dice, places, pairs, starts, ends, most=1000, limit=tight, cost=any_cost):
    books, load = booked(dice, places, pairs, starts, ends, most)
    ways = [Way(tail, head, limit(dice, x), *cost(dice, tail, head)) for (tail, head), x in zip(pairs, load)]
    assert all(x <= way.limit <= MOST_LIMIT for way, x in zip(ways, load)), name
    return Instance(name, places, ways, books)


# The instances


def sparse(name, seed, **choices):
    dice, all_places = random.Random(seed), range(1024)
    return made(name, dice, 1024, sparse_pairs(dice, 1024, 3000), all_places, all_places, **choices)


def layered(name, seed, **choices):
    return made(name, random.Random(seed), 1024, layered_pairs(32, 32), range(32), range(992, 1024), **choices)


def dense(name, seed, **choices):
    return made(name, random.Random(seed), 55, dense_pairs(55), range(55), range(55), **choices)


def chain(name, seed, **choices):
    return made(name, random.Random(seed), 1024, chain_pairs(1024), range(512), range(512, 1024), **choices)


def assignment(name, seed, groups, lasts, number, **choices):
    """Groups of feet handed to lasts, the misfit being the difference in length."""
    dice = random.Random(seed)
    length = sizes(dice, groups + lasts)
    pairs = nearest_pairs(length[:groups], length[groups:], number)

    def misfit(dice, tail, head):
        return 0, abs(length[tail] - length[head])

    return made(name, dice, groups + lasts, pairs, range(groups), range(groups, groups + lasts), cost=misfit, **choices)


def instances():
    yield sparse("sparse, tight limits", 1)
    yield sparse("sparse, wide limits", 2, limit=wide)
    yield sparse("sparse, single feet", 3, most=1)
    yield sparse("sparse, redraws", 4, cost=redraw_cost)
    yield layered("layered, tight limits", 5)
    yield layered("layered, wide limits", 6, limit=wide)
    yield chain("chain, listed backward", 10, most=100)
    yield dense("dense, tight limits", 7)
    yield assignment("feet to near lasts", 8, 600, 400, 5, most=20)
    yield assignment("feet to all lasts", 9, 54, 55, 55, most=20)


# The two files of an instance


def job_file(instance):
    ways = [("way", *way) for way in instance.ways]
    books = [("book", *numbers) for numbers in instance.books]
    file = build(("head", instance.places, len(ways)), *ways, *books, *END)
    assert len(file) <= LONGEST, instance.name
    return file


def net_amounts(instance):
    net = [0] * instance.places
    for start, end, amount in instance.books:
        net[start] += amount
        net[end] -= amount
    return net


def single(redraws, misfit):
    return redraws * REDRAW + misfit


def dimacs_text(instance):
    lines = [f"p min {instance.places} {len(instance.ways)}"]
    lines += [f"n {v + 1} {amount}" for v, amount in enumerate(net_amounts(instance)) if amount]
    lines += [f"a {w.tail + 1} {w.head + 1} 0 {w.limit} {single(w.redraws, w.misfit)}" for w in instance.ways]
    return "\n".join(lines) + "\n"


def write_files(directory, instance):
    stem = directory / re.sub(r"\W+", "-", instance.name)
    job, dimacs = stem.with_suffix(".job"), stem.with_suffix(".min")
    job.write_bytes(job_file(instance))
    dimacs.write_text(dimacs_text(instance))
    return job, dimacs


# The three programs. Each is timed as a whole, from its start to its end


class Failed(Exception):
    pass


def timed(command, input_path, most_seconds):
    with open(input_path, "rb") as file:
        begun = time.perf_counter()
        done = subprocess.run(command, stdin=file, stdout=subprocess.PIPE, stderr=subprocess.STDOUT, timeout=most_seconds)
        seconds = time.perf_counter() - begun
    if done.returncode != 0:
        raise Failed(f"{command[0]} ended with {done.returncode}")
    return seconds, done.stdout.decode()


def found(pattern, text, program):
    match = re.search(pattern, text, re.MULTILINE)
    if match is None:
        raise Failed(f"{program} gives no least cost; its last lines: {text[-200:]!r}")
    return [int(part) for part in match.groups()]


def run_job(program, job, dimacs, most_seconds):
    seconds, text = timed([program], job, most_seconds)
    answer = Answer(*found(r"^(\d+) settled\ntotal (\d+) (\d+)$", text, "job"))
    return Run(seconds, single(answer.redraws, answer.misfit), answer)


def run_lemon(program, job, dimacs, most_seconds):
    seconds, text = timed([program, "-long", str(dimacs)], "/dev/null", most_seconds)
    return Run(seconds, *found(r"^Min flow cost: (\d+)$", text, "dimacs-solver"))


def run_glpk(program, job, dimacs, most_seconds):
    solution = dimacs.with_suffix(".sol")
    seconds, _ = timed([program, "--mincost", str(dimacs), "-w", str(solution)], "/dev/null", most_seconds)
    return Run(seconds, *found(r"^s bas \d+ \d+ f f (\d+)$", solution.read_text(), "glpsol"))


def best(run, program, files, options):
    """The fastest of some runs; None if there is no such program, or it takes too long."""
    if program is None:
        return None
    try:
        done = [run(program, *files, options.limit) for _ in range(options.runs)]
    except subprocess.TimeoutExpired:
        return None
    if len({(each.total, each.answer) for each in done}) != 1:
        raise Failed(f"{program} gives different answers")
    return min(done, key=lambda each: each.seconds)


# The table

HEADINGS = ("instance", "places", "ways", "feet booked", "routes sent", "job", "lemon", "glpk", "redraws", "misfit")


def shown_time(run):
    return "-" if run is None else f"{run.seconds:.3f} s"


def row(instance, runs):
    """The cells of an instance; routes and total are what job printed."""
    numbers = (instance.places, len(instance.ways), sum(amount for _, _, amount in instance.books))
    answer = ("-",) * len(Answer._fields) if runs[0] is None else [f"{number:,}" for number in runs[0].answer]
    return (instance.name, *[f"{number:,}" for number in numbers], answer[0], *map(shown_time, runs), *answer[1:])


def line(cells):
    return "| " + " | ".join(cells) + " |"


def compared(instance, programs, directory, options):
    """Print the row of an instance; answers whether all least costs are the same."""
    files = write_files(directory, instance)
    try:
        runs = [best(run, program, files, options) for run, program in programs]
    except Failed as failed:
        print(f"{instance.name}: {failed}", file=sys.stderr)
        return False
    print(line(row(instance, runs)), flush=True)
    totals = {run.total for run in runs if run is not None}
    if len(totals) > 1:
        print(f"{instance.name}: least costs differ: {sorted(totals)}", file=sys.stderr)
    return len(totals) <= 1


def compare_all(programs, directory, options):
    chosen = [instance for instance in instances() if options.only in instance.name]
    print(line(HEADINGS))
    print("|---|" + "---:|" * (len(HEADINGS) - 1))
    return all([compared(instance, programs, directory, options) for instance in chosen])


def parsed(arguments):
    parser = argparse.ArgumentParser(description="Time the program job beside dimacs-solver and glpsol, and compare the least costs.")
    parser.add_argument("--job", default=str(ROOT / "crates/job/out/job"), help="the program job (crates/job/out/job)")
    parser.add_argument("--only", default="", help="only the instances whose name has this word")
    parser.add_argument("--runs", type=int, default=3, help="how often each program is timed (3); the fastest counts")
    parser.add_argument("--limit", type=float, default=120, help="the most seconds of one run (120)")
    parser.add_argument("--keep", type=Path, help="a directory to leave the files in")
    options = parser.parse_args(arguments)
    if options.runs < 1 or options.limit <= 0:
        parser.error("--runs and --limit are above zero")
    return options


def main(arguments):
    options = parsed(arguments)
    if shutil.which(options.job) is None:
        print(f"no program {options.job}: build it with rt run in crates/job, or name it with --job", file=sys.stderr)
        return 2
    programs = [(run_job, options.job), (run_lemon, shutil.which("dimacs-solver")), (run_glpk, shutil.which("glpsol"))]
    with tempfile.TemporaryDirectory() as scratch:
        directory = options.keep or Path(scratch)
        directory.mkdir(parents=True, exist_ok=True)
        return 0 if compare_all(programs, directory, options) else 1


if __name__ == "__main__":
    sys.exit(main(sys.argv[1:]))
