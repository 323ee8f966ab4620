#!/usr/bin/env python3
"""Brings the repository's own definitions and lemmas to Rattle's spelling: snake case, and camel case for types.

It reads the names that specs/ and proofs/ declare with a dash in them, and respells each wherever it stands in a
.antt or .rt file below crates/. Goals, invariants and other names that Rattle makes keep their dashes.
`--map` prints the map alone.
"""
import pathlib
import re
import sys

ROOT = pathlib.Path(__file__).resolve().parent.parent
WORD = re.compile(r"[^\s(){}\[\],;.\"`]+")
SIGNATURE = re.compile(r"^\s*(?:(?:abbrev|pub|unfoldable|data|record)\s+)*([^\s(){}\[\],;.\"]+)((?:\s+[({].*)?\s+:(?:\s.*)?)$")
# names that would fall together with a function's or a module's
APART = {
    "Both-ways": "BothWaysCancel",
    "answer-line": "answer_line_lem",
    "body-len": "body_len_lem",
    "call-of": "call_of_lem",
    "prices-line": "prices_line_lem",
    "put-mid": "put_mid_lem",
    "send-step": "send_step_lem",
    "total-line": "total_line_lem",
    "words-of-cost": "words_of_cost_lem",
}
MADE = re.compile(r"^(loop|returns|invariant|measure|branch|ghost|in_|call|f)-")


def respelled(name):
    if name in APART:
        return APART[name]
    parts = name.split("-")
    if parts[0][:1].isupper():
        return parts[0] + "".join(p[:1].upper() + p[1:] for p in parts[1:])
    return "_".join(parts)


def sources():
    for crate in sorted((ROOT / "crates").iterdir()):
        for path in sorted(crate.rglob("*")):
            if path.suffix in (".antt", ".rt") and "out" not in path.relative_to(crate).parts:
                yield path


def declared():
    names = set()
    for path in sources():
        if path.suffix != ".antt":
            continue
        for line in path.read_text().split("\n"):
            found = SIGNATURE.match(line)
            if not found or line.lstrip().startswith(("use ", "--", "module ")):
                continue
            name, rest = found.groups()
            of_a_function = path.name in ("Answers.antt", "Invariants.antt", "Proof.antt")
            if of_a_function and (" goal." in rest or MADE.match(name)):
                continue
            if "-" in name.strip("-") and re.search(r"[a-zA-Z]", name):
                names.add(name)
    return names


def main():
    names = declared()
    new = {name: respelled(name) for name in names}
    taken = {}
    for path in sources():
        for word in WORD.findall(path.read_text()):
            taken.setdefault(word, path)
    together = [(n, m) for n, m in new.items() if m in taken]
    seen = {}
    for n, m in new.items():
        if m in seen:
            together.append((n, seen[m]))
        seen[m] = n
    for n, m in sorted(together):
        print(f"falls together: {n} -> {m}", file=sys.stderr)
    if "--map" in sys.argv:
        for n in sorted(new):
            print(n, new[n])
        return
    if together:
        sys.exit("names fall together: nothing was changed")
    for path in sources():
        old = path.read_text()
        text = WORD.sub(lambda w: new.get(w.group(0), w.group(0)), old)
        if text != old:
            path.write_text(text)
    print(f"{len(new)} names respelled")


if __name__ == "__main__":
    main()
