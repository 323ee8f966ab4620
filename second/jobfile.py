"""Job and grid files, a second time: builds, checks and lists them, and writes what the programs are run on and must print.

The checker is a grammar: each kind of record is a regular expression, and so is each form of file. The longest beginning of a file that
fits its form tells where the first fault is.

    python3 second/jobfile.py list job < FILE     list a file (or: list grid)
    python3 second/jobfile.py examples            write examples/
    python3 second/jobfile.py show                write crates/show/stdin and stdout
    python3 second/jobfile.py cases               write crates/file_cases/stdin and stdout
    python3 second/jobfile.py all                 write all of these
    python3 second/jobfile.py check               write nothing, and fail where a file is not what would be written
"""

import random
import re
import struct
import sys
from pathlib import Path

ROOT = Path(__file__).resolve().parent.parent

LONGEST = 60_000
JOB, GRID = "job", "grid"

# the table of kinds: the kind byte, how the numbers of the body lie, the words of the listing
KINDS = {
    "head": (1, ">HH", "head places {} ways {}"),
    "way": (2, ">HHIii", "way {} from {} to {} limit {} redraws {} misfit {}"),
    "book": (3, ">HHI", "book from {} to {} amount {}"),
    "route": (4, ">", "route"),
    "settle": (5, ">I", "settle budget {}"),
    "total": (6, ">", "total"),
    "prices": (7, ">", "prices"),
    "group": (8, ">HI", "group length {} count {}"),
    "last": (9, ">HI", "last length {} stock {}"),
}
NAMES = {number: name for name, (number, _, _) in KINDS.items()}
CALLS = ("book", "route", "settle", "total", "prices")
SIZES = ("group", "last")

SHORT_TABLE, CUT_SHORT, UNKNOWN_KIND, OUT_OF_PLACE, LONG_FILE = 12, 14, 15, 16, 17


def body_len(name):
    return struct.calcsize(KINDS[name][1])


# Building


def record(name, *numbers):
    number, layout, _ = KINDS[name]
    return bytes([number]) + struct.pack(layout, *numbers)


def build(*records):
    return b"".join(record(*r) for r in records)


# Checking


def spelled(*names):
    """The expression of one record of any of these kinds."""
    each = (re.escape(bytes([KINDS[n][0]])) + b".{%d}" % body_len(n) for n in names)
    return b"(?:" + b"|".join(each) + b")"


HEAD = re.compile(spelled("head"), re.DOTALL)
SOME_CALLS = re.compile(spelled(*CALLS) + b"*", re.DOTALL)
SOME_SIZES = re.compile(spelled(*SIZES) + b"*", re.DOTALL)
ANY = re.compile(spelled(*KINDS), re.DOTALL)


def lawful_beginning(form, file):
    """The length of the longest beginning that is whole records in place, the kinds that may stand there next, and whether it may end there."""
    if form == GRID:
        return SOME_SIZES.match(file).end(), SIZES, True
    head = HEAD.match(file)
    if head is None:
        return 0, ("head",), False
    _, due = struct.unpack_from(KINDS["head"][1], file, 1)
    ways = re.compile(spelled("way") + b"{0,%d}" % due, re.DOTALL).match(file, head.end())
    if ways.end() - head.end() < due * (1 + body_len("way")):
        return ways.end(), ("way",), False
    return SOME_CALLS.match(file, ways.end()).end(), CALLS, True


def first_fault(form, file):
    """The number and the offset of the file's first fault; None if it is good."""
    if len(file) > LONGEST:
        return LONG_FILE, LONGEST
    end, due, may_end = lawful_beginning(form, file)
    if end == len(file):
        return None if may_end else (CUT_SHORT, end)
    if file[end] not in NAMES:
        return UNKNOWN_KIND, end
    if NAMES[file[end]] not in due:
        return OUT_OF_PLACE, end
    return CUT_SHORT, end


# Listing


def words(name, body, ways_before):
    _, layout, text = KINDS[name]
    numbers = struct.unpack(layout, body)
    return text.format(*([ways_before] if name == "way" else []), *numbers)


def listing(form, file):
    fault = first_fault(form, file)
    if fault is not None:
        return "file {} at {}\n".format(*fault)
    lines, ways = [], 0
    for found in ANY.finditer(file):
        name = NAMES[found[0][0]]
        lines.append(f"{found.start()} {words(name, found[0][1:], ways)}\n")
        ways += name == "way"
    return "".join(lines)


# The examples

TWO_STUDIES = build(
    ("head", 5, 5),
    ("way", 0, 2, 4, 0, 1),
    ("way", 0, 3, 4, 1, 6),
    ("way", 1, 2, 4, 0, 2),
    ("way", 2, 4, 3, 0, 0),
    ("way", 3, 4, 2, 0, 0),
    ("book", 0, 4, 2),
    ("book", 1, 4, 2),
    ("settle", 10),
    ("total",),
    ("prices",),
    ("book", 1, 4, 2),
    ("settle", 10),
    ("total",),
)
ONE_GROUP = build(("group", 2650, 3), ("last", 2640, 2), ("last", 2700, 5))

# The cases: pairs of a form and a file

U16 = (0, 1, 255, 256, 2**16 - 1)
U32 = (0, 1, 2**16, 2**31 - 1, 2**31, 2**32 - 1)
I32 = (-(2**31), -(2**31) + 1, -256, -1, 0, 1, 2**31 - 1)


def truncations():
    for form, file in ((JOB, TWO_STUDIES), (GRID, ONE_GROUP)):
        for end in range(len(file) + 1):
            yield form, file[:end]
    yield GRID, TWO_STUDIES
    yield JOB, ONE_GROUP


def positions():
    """Beginnings of files, and what makes each whole again after one more record in place."""
    head, way = record("head", 3, 2), record("way", 0, 1, 2, -3, 4)
    return (
        (JOB, b"", way + way),
        (JOB, head, way),
        (JOB, head + way, b""),
        (JOB, head + way + way, b""),
        (JOB, head + way + way + record("prices"), record("total")),
        (GRID, b"", b""),
        (GRID, record("last", 2640, 2), record("group", 2650, 3)),
    )


def kind_bytes():
    for form, before, _ in positions():
        for b in range(256):
            yield form, before + bytes([b])


def kinds_in_positions():
    """Each kind at each position, with each number of bytes of its body, and with more behind it."""
    for form, before, behind in positions():
        for name, (number, _, _) in KINDS.items():
            body = bytes([0, 1, 0, 2] * 4)[: body_len(name)]
            for end in range(len(body) + 1):
                yield form, before + bytes([number]) + body[:end]
            yield form, before + bytes([number]) + body + behind
            yield form, before + bytes([number]) + body + behind + b"\x00"


def ways_told():
    """Heads that tell no way, one more or one fewer than stand there, and the most."""
    way, calls = record("way", 1, 2, 3, 4, 5), record("total") + record("prices")
    yield JOB, record("head", 0, 0)
    yield JOB, record("head", 7, 0) + calls
    for told in range(5):
        for stand in range(5):
            yield JOB, record("head", 4, told) + way * stand
            yield JOB, record("head", 4, told) + way * stand + calls
    yield JOB, record("head", 4, 256) + way
    yield JOB, record("head", 4, 2**16 - 1) + way
    yield JOB, record("head", 256, 1) + way + calls
    yield JOB, record("head", 1, 256) + way * 256 + calls
    yield JOB, record("head", 1, 256) + way * 255 + calls
    yield JOB, record("head", 1, 256) + way * 257 + calls


def extremes():
    for i in I32:
        for j in I32:
            yield JOB, build(("head", 2, 1), ("way", 0, 1, 1, i, j))
    for a in U16:
        for b in U16:
            yield JOB, build(("head", a, 1), ("way", a, b, 1, 0, 0), ("book", b, a, 1))
        for n in U32:
            yield JOB, build(("head", a, 1), ("way", 0, a, n, 0, 0), ("book", a, 0, n), ("settle", n))
            yield GRID, build(("group", a, n), ("last", a, n))
    for a in U16:
        yield JOB, build(("head", a, 0))


def long_files():
    """Files of 60,000 bytes, good and faulty at the end, and of one byte more."""
    ways = (LONGEST - 5) // 17
    job = record("head", 2, ways) + record("way", 0, 1, 1, 0, -1) * ways
    job += record("prices") * (LONGEST - len(job))
    assert len(job) == LONGEST
    yield JOB, job
    yield JOB, job[:-1] + b"\x0a"
    yield JOB, job[:-1] + b"\x05"
    yield JOB, job + b"\x06"
    books = (LONGEST - 5) // 9
    calls = record("head", 0, 0) + record("book", 1, 2, 3) * books
    calls += record("total") * (LONGEST - len(calls))
    assert len(calls) == LONGEST
    yield JOB, calls[:-1] + b"\x02"
    yield JOB, b"\x00" + calls
    grid = (record("group", 2650, 1) + record("last", 2640, 2)) * (LONGEST // 14 + 1)
    yield GRID, grid[:LONGEST]
    yield GRID, grid[: LONGEST + 1]


def random_record(dice, name):
    numbers = []
    for letter in KINDS[name][1][1:]:
        size = struct.calcsize(letter)
        low = -(2 ** (8 * size - 1)) if letter == "i" else 0
        high = low + 2 ** (8 * size) - 1
        numbers.append(dice.choice((low, high, dice.randint(low, high), dice.randint(0, 9), dice.randint(0, 999))))
    return record(name, *numbers)


def random_file(dice, form):
    if form == GRID:
        return b"".join(random_record(dice, dice.choice(SIZES)) for _ in range(dice.randint(0, 12)))
    ways = dice.randint(0, 6)
    parts = [record("head", dice.randint(0, 2**16 - 1), ways)]
    parts += [random_record(dice, "way") for _ in range(ways)]
    parts += [random_record(dice, dice.choice(CALLS)) for _ in range(dice.randint(0, 10))]
    return b"".join(parts)


def damaged(dice, file):
    at = dice.randint(0, len(file))
    how = dice.randint(0, 5)
    if how == 0:
        return file[:at]
    if how == 1:
        return file[:at] + file[at + 1 :]
    if how == 2:
        return file[:at] + bytes([dice.randint(0, 12)]) + file[at:]
    if how == 3:
        return file[:at] + bytes([dice.randint(0, 255)]) + file[at + 1 :]
    starts = [found.start() for found in ANY.finditer(file)] or [0]
    start = dice.choice(starts)
    if how == 4:
        return file[:start] + bytes([dice.randint(0, 12)]) + file[start + 1 :]
    return file[:start] + random_record(dice, dice.choice(list(KINDS))) + file[start:]


def random_files():
    dice = random.Random(20240229)
    for _ in range(150):
        for form in (JOB, GRID):
            file = random_file(dice, form)
            yield form, file
            yield form, damaged(dice, file)
            yield form, damaged(dice, damaged(dice, file))
    for _ in range(100):
        yield dice.choice((JOB, GRID)), bytes(dice.randint(0, 11) for _ in range(dice.randint(0, 40)))


def cases():
    """All of them, each once."""
    found = {}
    for some in (truncations, kind_bytes, kinds_in_positions, ways_told, extremes, long_files, random_files):
        found.update(dict.fromkeys(some()))
    return list(found)


# What the programs are run on, and what they must print


def case_bytes(form, file):
    return struct.pack(">BI", (JOB, GRID).index(form), len(file)) + file


def case_text(number, form, file):
    """The listing, then how a check ends, a copy into a table of the file's length, and one into a table that is a byte shorter."""
    lines = listing(form, file)
    text = f"case {number}\n" + lines
    fault = first_fault(form, file)
    if fault is None:
        text += f"records {lines.count(chr(10))}\ncopied {len(file)}\n"
    else:
        text += "fault {0} at {1}\nrefused {0} at {1}\n".format(*fault)
    if file:
        text += f"short {SHORT_TABLE}\n"
    return text


def examples():
    return {"examples/two-studies.job": TWO_STUDIES, "examples/one-group.grid": ONE_GROUP}


def show():
    return {"crates/show/stdin": TWO_STUDIES, "crates/show/stdout": listing(JOB, TWO_STUDIES).encode()}


def file_cases():
    return {
        "crates/file_cases/stdin": b"".join(case_bytes(*c) for c in cases()),
        "crates/file_cases/stdout": "".join(case_text(i, *c) for i, c in enumerate(cases())).encode(),
    }


def write(files):
    for name, content in files.items():
        path = ROOT / name
        path.parent.mkdir(parents=True, exist_ok=True)
        path.write_bytes(content)
        print(f"{name}: {len(content)} bytes")


def check(files):
    other = [name for name, content in files.items() if not (ROOT / name).is_file() or (ROOT / name).read_bytes() != content]
    for name in other:
        print(f"{name}: not what this program writes")
    return 1 if other else 0


def main(arguments):
    sets = {"examples": examples, "show": show, "cases": file_cases}
    sets["all"] = lambda: {**examples(), **show(), **file_cases()}
    if arguments in (["list", JOB], ["list", GRID]):
        sys.stdout.write(listing(arguments[1], sys.stdin.buffer.read()))
    elif arguments == ["check"]:
        return check(sets["all"]())
    elif len(arguments) == 1 and arguments[0] in sets:
        write(sets[arguments[0]]())
    else:
        sys.stderr.write(__doc__)
        return 2
    return 0


if __name__ == "__main__":
    sys.exit(main(sys.argv[1:]))
