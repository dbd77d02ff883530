"""Which crates are as they were when all their wrong bodies were refused.

The goals that a wrong body leaves open are stated by the sources and the specs of its crate and of all crates below, in the
logic of the kit. A lemma helps to find a proof, and states nothing; so does a kit's search. A goal that doesn't hold has a
proof by no lemma and in no kit of the same logic. So `tried.txt` has, for each crate of which all edits were refused, a sum of
its sources, specs, proofs and edits, of the sources and specs of all crates below, of the tools that try them, and of the
logic. tools/wrong-bodies writes it, and leaves out what hasn't changed if it is asked to. The gate has it written to another
file, which SYNTHESIS_TRIED names, since it changes no file of the repository.
"""

import functools
import hashlib
import os
import pathlib
import subprocess

import crates as listed

RECORD = listed.ROOT / "tools" / "tried.txt"
NOTED = pathlib.Path(os.environ.get("SYNTHESIS_TRIED") or RECORD)
HEAD = """# The crates of which all wrong bodies were refused: how many files they are, and the sum of what states and proves their goals.
# tools/wrong-bodies writes it; tools/tried.py says what is in the sum.
"""
# What states the contracts of a crate.
STATED = ("src", "specs")
# Of so many commits one, by its number, has a crate tried again that hasn't changed.
TURNS = 12


def files_of(crate, parts):
    """The files of these folders of a crate, in order."""
    return sorted(it for part in parts for it in (listed.ROOT / "crates" / crate / part).rglob("*") if it.is_file())


@functools.cache
def logic():
    """The sum of the kit's logic, or the whole line of a kit that names no logic."""
    line = subprocess.run(["rt", "version"], check=True, capture_output=True).stdout
    return line.partition(b" logic ")[2] or line


def line_of(crate, sums):
    """The crate's line: its name, how many edits it has, and the sum of what states and proves their goals. `sums` has those of files."""
    needs, edits = listed.uses(), files_of(crate, ["wrong-bodies"])
    files = [listed.ROOT / "tools" / "wrong-bodies", listed.ROOT / "tools" / "crates.py", *files_of(crate, listed.PARTS), *edits]
    for name in listed.below(crate, needs):
        files += files_of(name, STATED)
    found = hashlib.sha256(logic())
    found.update(listed.rows()[crate].encode())
    for file in files:
        sums[file] = sums.get(file) or hashlib.sha256(file.read_bytes()).hexdigest()
        found.update(f"\n{file.relative_to(listed.ROOT)} {sums[file]}".encode())
    return f"{crate} {len(edits)} {found.hexdigest()}"


def lines():
    """The lines of the record, by crate."""
    found = RECORD.read_text(encoding="ascii").splitlines() if RECORD.is_file() else []
    return {it.partition(" ")[0]: it for it in found if not it.startswith("#")}


def lines_of(crates):
    """The lines that these crates have now."""
    sums = {}
    return {it: line_of(it, sums) for it in crates}


# The lines as they are before anything is tried.
BEFORE = lines_of(it.parent.name for it in listed.ROOT.glob("crates/*/wrong-bodies"))


def note(crates, with_fault):
    """Notes of which crates all wrong bodies were refused, and of which not all. One that changed meanwhile is not noted."""
    found = lines() | {it: line for it, line in lines_of(crates).items() if line == BEFORE[it]}
    text = HEAD + "".join(f"{found[it]}\n" for it in sorted(found) if it not in with_fault and files_of(it, ["wrong-bodies"]))
    if not NOTED.is_file() or NOTED.read_text(encoding="ascii") != text:
        NOTED.parent.mkdir(exist_ok=True)
        NOTED.write_text(text, encoding="ascii")


def left_out(crates):
    """Those of the crates that are as they were tried, except those whose turn it is. With no commit it is no crate's turn."""
    asked = subprocess.run(["git", "rev-parse", "HEAD"], cwd=listed.ROOT, capture_output=True, text=True, check=False)
    turn = int(asked.stdout, 16) % TURNS if asked.returncode == 0 else None
    found = lines()
    return [it for at, it in enumerate(crates) if at % TURNS != turn and found.get(it) == BEFORE[it]]
