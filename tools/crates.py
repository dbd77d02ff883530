#!/usr/bin/env python3
"""Reads crates.txt: each crate with its words, such as may_wait=2, and the crates that it uses. The tools import it, or
ask it:

    tools/crates.py names           prints all crates, each after those that it uses
    tools/crates.py order NAME..    prints these and all below them, first those for which the most lines wait
    tools/crates.py row NAME        prints the crate's line
    tools/crates.py uses NAME       prints the crates of this repository that it uses
"""

import pathlib
import sys

ROOT = pathlib.Path(__file__).resolve().parent.parent
PARTS = ("src", "specs", "proofs")


def rows():
    """The lines without their comments, by the names of the crates."""
    lines = (ROOT / "crates.txt").read_text(encoding="utf-8").splitlines()
    found = [line.partition("#")[0].strip() for line in lines]
    return {line.partition(":")[0].split()[0]: line for line in found if ":" in line}


def words():
    """The words of each crate before the colon: `may_wait=2` is the value 2 of `may_wait`."""
    heads = {name: line.partition(":")[0].split()[1:] for name, line in rows().items()}
    return {name: dict(it.partition("=")[::2] for it in head) for name, head in heads.items()}


def uses():
    """What each crate uses: crates of this repository, and libraries of the kit."""
    return {name: line.partition(":")[2].split() for name, line in rows().items()}


def below(name, needs):
    """The crates of the repository below this one, each after those that it uses."""
    found = []
    for it in needs[name]:
        if it in needs:
            found += [one for one in [*below(it, needs), it] if one not in found]
    return found


def rlib(name):
    """Where rt leaves the library of a crate."""
    return ROOT / "crates" / name / "out" / "rlib" / f"{name}.rlib"


def lines_of(name):
    """How many lines a crate's sources have."""
    files = [it for end in ("rt", "antt") for it in (ROOT / "crates" / name).rglob(f"*.{end}")]
    return sum(it.read_bytes().count(b"\n") for it in files)


def in_order(targets):
    """These crates and all below them, first those with the most lines in a chain of crates that waits for them."""
    needs, longest, lengths = uses(), {}, {}

    def reach(name, above):
        length = lengths[name] = lengths.get(name) or lines_of(name)
        if name not in longest or longest[name] < above + length:
            longest[name] = above + length
            for it in needs[name]:
                if it in needs:
                    reach(it, longest[name])

    for name in targets:
        reach(name, 0)
    return sorted(longest, key=lambda it: (-longest[it], it))


def main(asked):
    word, names = asked[0] if asked else None, asked[1:]
    if not all(it in rows() for it in names) or (word, len(names)) not in {("names", 0), ("row", 1), ("uses", 1)} and (
            word != "order" or not names):
        print(__doc__, file=sys.stderr)
        return 2
    if word == "names":
        print(*rows(), sep="\n")
    elif word == "order":
        print(*in_order(names), sep="\n")
    elif word == "row":
        print(rows()[names[0]])
    else:
        print(*[it for it in uses()[names[0]] if it in rows()])
    return 0


if __name__ == "__main__":
    sys.exit(main(sys.argv[1:]))
