"""Counts the places in src/ that may still read like the older language, by topic, and lists them with -v.

    python3 tools/old_forms.py [-v] [FOLDER]

FOLDER holds crates/ and is the repository by default. A line that it finds is a place to look at, and no verdict.
"""
import itertools
import re
import sys
from collections import Counter, defaultdict
from pathlib import Path

verbose = "-v" in sys.argv
folder = Path(next((a for a in sys.argv[1:] if a != "-v"), Path(__file__).parent.parent))
sources = sorted(p for p in folder.glob("crates/*/src/**/*.rt"))
proofs = sorted(folder.glob("crates/*/proofs/**/*.antt"))


def grep(pattern, paths=sources):
    for path in paths:
        for number, line in enumerate(path.read_text().splitlines(), 1):
            if re.search(pattern, line) and not line.lstrip().startswith("//"):
                yield f"{path.relative_to(folder)}:{number}: {line.strip()}"


def tell(topic, what, found):
    found = list(found)
    print(f"{topic}: {what}: {len(found)}")
    if verbose:
        for line in found:
            print("    " + line)


def functions():
    """Each function with the shape of its body: names and numbers are all alike."""
    for path in sources:
        text = path.read_text()
        for match in re.finditer(r"^( *)(?:pub(?:\(crate\))? )?fn (\w+).*?^\1}", text, re.S | re.M):
            body = match.group(0)
            start = re.search(r"^ *\{$|\{\n", body, re.M)
            code = re.sub(r"//.*", "", body[start.start():] if start else body)
            tokens = re.findall(r"\w+|[^\w\s]", code)
            shape = [t if re.fullmatch(r"[^\w]|if|else|for|in|let|match|return|while|loop|mut|fn", t) else "x" for t in tokens]
            if len(shape) >= 40:
                yield f"{path.relative_to(folder)} {match.group(2)}", " ".join(shape)


def twins():
    by_shape = defaultdict(list)
    for name, shape in functions():
        if "/tests.rt" not in name:
            by_shape[shape].append(name)
    for names in by_shape.values():
        for a, b in itertools.combinations(names, 2):
            yield f"{a} ~ {b}"


def requirements():
    counts = Counter()
    for path in sources:
        for clause in re.findall(r"requires(?: \w+)? (\{.*\})", path.read_text()):
            counts[re.sub(r"self\.(now|old)", "self", clause).replace(".now", "").replace(".old", "")] += 1
    for clause, n in counts.most_common():
        if n >= 3:
            yield f"{n} times {clause}"


def uncited():
    """Lemmas of proofs/ that stand nowhere but where they are stated and proved."""
    texts = {p: p.read_text() for kind in ("specs", "proofs") for p in folder.glob(f"crates/*/{kind}/**/*.antt")}
    for path in sorted(folder.glob("crates/*/proofs/*.antt")):
        for name in dict.fromkeys(re.findall(r"^ *(?:pub |abbrev |unfoldable )*([a-z][\w'-]*) *:", texts[path], re.M)):
            word = re.compile(rf"(?<![\w'-]){re.escape(name)}(?![\w'-])")
            own = re.compile(rf"^ *(?:pub |abbrev |unfoldable )*{re.escape(name)}(?![\w'-]).*?(?:=|:)", re.M)
            if not any(word.search(own.sub("", text) if p == path else text) for p, text in texts.items()):
                yield f"{path.relative_to(folder)}: {name}"


tell("enums and flags", "own enums", grep(r"^ *(pub(\(crate\))? )?enum "))
tell("enums and flags", "flags", grep(r"Vec<bool>|\[bool\]|: bool,$"))
tell("enums and flags", "numbers for kinds, or 0 for none", grep(r"kind: u8|&\[[1-9](,|\])|return 0;"))
tell("enums and flags", "refusals in an Option", grep(r"Option<Refusal>"))
tell("twins", "functions of one shape", twins())
tell("loops", "loops over numbers, or with no for", grep(r"for .* in .*\.\.|while |loop \{"))
tell("by hand", "text made by hand", grep(r"format!\(in"))
tell("by hand", "casts", grep(r" as (usize|u64|u32|u16|u8|i64|i32)\b"))
tell("by hand", "comparisons taken apart", grep(r"if let Ordering::"))
tell("facts", "facts required by three functions or more", requirements())
tell("buffers", "lengths beside what they measure", grep(r"\blen: usize"))
tell("buffers", "arrays of fixed length in a type", grep(r"^ *(pub(\(crate\))? )?\w+: \[.*; \d+\],"))
tell("switches", "function pointers and dyn", grep(r"\bfn\(|dyn "))
tell("proofs", "proof files", (str(p.relative_to(folder)) for p in proofs))
print("proofs: lines:", sum(len(p.read_text().splitlines()) for p in proofs))
tell("proofs", "lemmas that nothing cites", uncited())
