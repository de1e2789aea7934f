#!/usr/bin/env python3
"""Brings the names of this project's definitions and lemmas to snake case, in crates/.

usage: tools/respell.py [--dry]

port.py respells only the names that a library had too. This turns the others: a name of specs/ or proofs/ with a capital
inside (rowsIn, rows_in), and a lemma with dashes (row-told, row_told). A fact or a type keeps its capital, and a dash
beside one stays (Listed-next). Names of src/, of goals, and what stands in quotes stay. A name whose new spelling is
already another name of the project is listed, and stays.
"""

import glob
import re
import sys

TOKEN = re.compile(r"[^\s(){}\[\],;.`\"|·]+")
NAME = re.compile(r"^[a-z][A-Za-z0-9_'-]*$")
DECLARED = re.compile(
    r"^(?P<indent>\s*)(?:abbrev pub |abbrev |unfoldable pub |unfoldable |pub )*(?:record |data )?"
    r"(?P<name>[^\s(){}:.,;]+)(?:\s+[({][^:]*:[^)}]*[)}])*\s+:(?:\s|$)"
)
GOALS = re.compile(r"^(invariant|decreases|returns|overflow|bounds|loop|slice|then|else|in|if)-")
MADE = re.compile(r"^\s*use Rattle\.\w+\.proofs\.\S*\b(Lts|Tie|Goals|Given|Statement|Code)\b")
QUOTED = re.compile(r"\"(?:[^\"\\]|\\.)*\"")


# Lemmas that have a definition's new name already: crate, module, lemma.
LEMMAS = [
    ("demands", "Arrivals", "answer_at"),
    ("jump", "Jump", "by_bit"),
    ("walk", "UpdateLaws", "from_row"),
    ("section", "RunLaws", "in_step"),
    ("demands", "Trips", "laid_from"),
    ("demands", "FileExactly", "no_number"),
    ("section", "Listing", "rows_told"),
    ("column", "Stops", "no_stop"),
]

# Labels of a record, constructors and names of another module: they don't stand beside the definition.
APART = set("answerAt bitIn byBit columnsOf endRefused fieldAt foundIn fromRow inStep isStop laidFrom noNumber noStop parentRow rangeAt rowsTold".split())


def snake(name):
    """rowsIn and row-told in snake case; a dash beside a capital stays."""
    parts = name.split("-")
    out = ""
    for k, part in enumerate(parts):
        turned = part
        if not part[:1].isupper():
            turned = re.sub(r"([a-z0-9'])([A-Z])", lambda m: m.group(1) + "_" + m.group(2).lower(), part)
            turned = re.sub(r"([A-Z])", lambda m: m.group(1).lower(), turned)
        if k:
            out += "-" if part[:1].isupper() or parts[k - 1][:1].isupper() else "_"
        out += turned
    return out


def files(*ends):
    return sorted(f for e in ends for f in glob.glob(f"crates/*/**/*{e}", recursive=True) if "/out/" not in f)


def own_file(path):
    """A file of definitions or lemmas, and not of one function's proof."""
    parts = path.split("/")
    return parts[2] == "specs" or (parts[2] == "proofs" and len(parts) == 4)


def declared():
    names = set()
    for path in files(".antt"):
        if not own_file(path):
            continue
        with open(path, encoding="utf-8") as f:
            for line in f:
                if line.lstrip().startswith("--"):
                    continue
                m = DECLARED.match(line.rstrip("\n"))
                if m and NAME.match(m.group("name")):
                    names.add(m.group("name"))
    return names


def tokens(text):
    """The names of a file, but for parts of paths and what stands behind a dot."""
    found = set()
    for line in text.split("\n"):
        if line.lstrip().startswith("--"):
            continue
        for m in TOKEN.finditer(line):
            if not (m.start() and line[m.start() - 1] == "." and line[m.start() - 2:m.start() - 1] not in (" ", "}")):
                found.add(m.group(0))
    return found


def plan():
    known = declared()
    seen = {}
    for path in files(".antt", ".rt"):
        with open(path, encoding="utf-8") as f:
            seen[path] = tokens(f.read())
    every = set().union(*seen.values())
    turn = {}
    for name in sorted(every):
        camel = re.match(r"^[a-z][a-z0-9_']*[A-Z]", name) and "_" not in name and "-" not in name
        dashed = "-" in name and name in known and not GOALS.match(name)
        if NAME.match(name) and (camel or dashed):
            new = snake(name)
            if new != name:
                turn[name] = new
    left = {}
    made = {}
    for old, new in turn.items():
        made.setdefault(new, []).append(old)

    def taken(old, new):
        return old not in APART and (new in known or any(old in ts and new in ts for p, ts in seen.items() if p.endswith(".antt")))

    for new, olds in sorted(made.items()):
        olds.sort(key=lambda w: "-" in w)
        first = olds[0]
        if taken(first, new) or (len(olds) > 1 and "-" not in olds[1]):
            left[first] = (new, olds)
        for old in olds[1:]:
            left[old] = (new, olds)
    for old, (new, olds) in list(left.items()):
        if "-" in old and not taken(old, new + "_lem"):
            turn[old] = new + "_lem"
            del left[old]
    return turn, left


def turned(text, turn, dashes, skip):
    out = []
    for line in text.split("\n"):
        if skip and MADE.match(line):
            out.append(line)
            continue
        quotes = [(m.start(), m.end()) for m in QUOTED.finditer(line)]
        whole = line

        def one_of_line(m):
            w = m.group(0)
            if w not in turn or ("-" in w and not dashes) or any(a <= m.start() < b for a, b in quotes):
                return w
            at = m.start()
            if ("-" in w or "_" in w) and at and whole[at - 1] == "." and not (at > 1 and whole[at - 2] in " }"):
                return w
            return turn[w]

        out.append(TOKEN.sub(one_of_line, line))
    return "\n".join(out)


def lemmas(dry):
    """Gives the lemmas of LEMMAS _lem, where they are declared and where they are imported."""
    for crate, module, name in LEMMAS:
        home = f"crates/{crate}/proofs/{module}.antt"
        brought = re.compile(rf"^\s*(?:pub )?use Rattle\.{crate}\.proofs\.{module}\.(?:{{[^}}]*(?<![\w'-]){name}(?![\w'-])[^}}]*}}|{name})", re.M)
        for path in files(".antt"):
            with open(path, encoding="utf-8") as f:
                text = f.read()
            if path == home or brought.search(text):
                new = turned(text, {name: name + "_lem"}, True, True)
                if new != text:
                    print(f"lemma: {name} is {name}_lem in {path}")
                    if not dry:
                        with open(path, "w", encoding="utf-8") as f:
                            f.write(new)


def main():
    dry = "--dry" in sys.argv[1:]
    lemmas(dry)
    turn, left = plan()
    for old, new in sorted(turn.items()):
        if old not in left and new != snake(old):
            print(f"lemma: {old} is {new}")
    for old, (new, olds) in sorted(left.items()):
        print(f"stays: {old}: {new} is there already")
        turn.pop(old)
    changed = 0
    for path in files(".antt", ".rt", ".edit"):
        with open(path, encoding="utf-8") as f:
            text = f.read()
        new = turned(text, turn, not path.endswith(".rt"), True)
        if new != text:
            changed += 1
            if not dry:
                with open(path, "w", encoding="utf-8") as f:
                    f.write(new)
    print(f"{len(turn)} names turned in {changed} files, {len(left)} stay")


main()
