"""Writes roff, in the words of man(7), from the comments of a header and from Markdown."""

import re
import textwrap

CHARACTERS = {"\\": "\\e", "~": "\\(ti", "^": "\\(ha", "`": "\\(ga", "'": "\\(aq", "\u2026": "..."}


def escape(words, code=False):
    """Plain words. In code a minus stays one."""
    words = "".join(CHARACTERS.get(it, it) if code or it not in "'" else it for it in words)
    if code:
        words = words.replace("-", "\\-")
    if not words.isascii():
        raise SystemExit(f"man/pages: not ASCII: {words}")
    return words


def inline(words):
    """A line of Markdown or of a comment: code is bold, as is what stars make strong."""
    words = re.sub(r"\[([^\]]*)\]\([^)]*\)", r"\1", words)
    parts = re.split(r"(`[^`]*`|\*\*[^*]+\*\*|\*[^*\s][^*]*\*)", words)
    lines = []
    for one in parts:
        if one.startswith("`") and one.endswith("`") and len(one) > 2:
            lines.append(f"\\fB{escape(one[1:-1], code=True)}\\fP")
        elif one.startswith("**") and len(one) > 4:
            lines.append(f"\\fB{escape(one[2:-2])}\\fP")
        elif one.startswith("*") and one.endswith("*") and len(one) > 2:
            lines.append(f"\\fI{escape(one[1:-1])}\\fP")
        else:
            lines.append(escape(one))
    return "".join(lines)


def guarded(line):
    """A line that no formatter takes for a request."""
    return f"\\&{line}" if line[:1] in (".", "'") else line


def text(words):
    """A filled paragraph. No space within code parts a line, so that its font ends where it begins."""
    words = inline(" ".join(words.split()))
    words = re.sub(r"\\f[BI].*?\\fP", lambda found: found[0].replace(" ", "\0"), words)
    lines = textwrap.wrap(words, 76, break_long_words=False, break_on_hyphens=False)
    return [part for it in lines for part in long(guarded(it.replace("\0", " ")))]


def long(line):
    """A line of at most 78 characters, or several, which roff reads as one."""
    lines = []
    while len(line) > 78:
        at = line.rfind(" ", 30, 76)
        at = 76 if at < 0 else at + 1
        while line[at - 1] == "\\" or line[at - 2] == "\\" or line[at - 3:at - 1] in ("\\(", "\\f"):
            at -= 1
        lines.append(line[:at] + "\\")
        line = line[at:]
    return [*lines, line]


def code(lines):
    """Lines as they are."""
    lines = [part for it in lines for part in long(guarded(escape(it.rstrip(), code=True)))]
    return [".EX", *(it or ".sp" for it in lines), ".EE"]


def prototype(declaration):
    """A function's declaration, wrapped after its commas."""
    lines = textwrap.wrap(declaration + ";", 74, subsequent_indent="        ", break_on_hyphens=False)
    return [f".B \"{escape(it, code=True)}\"" for it in lines] + [".PP"]


def blocks(words):
    """The paragraphs of a text: each with its kind."""
    found = []
    fenced = False
    for line in words.splitlines():
        last = found[-1] if found else (None, [])
        if line.startswith("```"):
            fenced = not fenced
            found.append(("code" if fenced else "gap", []))
        elif fenced:
            last[1].append(line)
        elif not line.strip():
            # A code block goes on after an empty line, if more of it comes.
            last[1].append("") if last[0] == "code" else found.append(("gap", []))
        elif line.startswith("    ") and last[0] in (None, "gap", "code"):
            last[1].append(line[4:]) if last[0] == "code" else found.append(("code", [line[4:]]))
        else:
            kind = kind_of(line)
            if kind in ("head", "bullet", "number") or last[0] not in (kind, "bullet", "number") or last[0] == "gap":
                found.append((kind, [line]))
            else:
                last[1].append(line)
    return [(kind, lines) for kind, lines in found if kind != "gap"]


def kind_of(line):
    ways = {"head": r"#+ ", "row": r"\|", "bullet": r" *- ", "number": r"\d+\. "}
    return next((kind for kind, way in ways.items() if re.match(way, line)), "text")


def without_end(lines):
    while lines and not lines[-1]:
        lines = lines[:-1]
    return lines


def table(rows):
    """A table as entries: the first cells are what an entry is about, and the last ones are named by the head."""
    cells = [[it.strip().replace("\0", "|") for it in row.replace("\\|", "\0").strip("|").split("|")] for row in rows]
    names, rows = cells[0], cells[2:]
    lines = []
    for row in rows:
        about = 2 if len(names) == 3 else 1
        lines += [".TP", *text(" ".join(it for it in row[:about] if it))]
        if len(names) <= 3:
            lines += text(row[about])
            continue
        said = [f"{name}: {it}" for name, it in zip(names[1:], row[1:]) if it]
        lines += text(f"{'. '.join(said)}.")
    return [*lines, ".PP"]


def entry(block):
    """An entry of a list."""
    mark, _, first = block[0].strip().partition(" ")
    mark = "\\(bu" if mark == "-" else mark
    return [f".IP {mark} 3", *text(" ".join([first, *block[1:]]))]


def markdown(words):
    """A part of a document."""
    lines = []
    for kind, block in blocks(words):
        if kind == "code":
            lines += [".PP", *code(without_end(block))]
        elif kind == "row":
            lines += table(block)
        elif kind == "head":
            lines += [f".SS {inline(block[0].lstrip('# '))}"]
        elif kind in ("bullet", "number"):
            lines += entry(block)
        else:
            lines += [".PP", *text(" ".join(block))]
    return lines


def without_gaps(lines):
    """No paragraph is empty: none comes before a heading, at the end, or before another one."""
    kept = []
    for line in lines:
        if kept and kept[-1] == ".PP" and line.split(" ")[0] in (".PP", ".SS", ".SH", ".TP", ".IP"):
            kept.pop()
        if line == ".PP" and kept and kept[-1].startswith((".SS", ".SH")):
            continue
        kept.append(line)
    while kept and kept[-1] == ".PP":
        kept.pop()
    return kept


TITLE = re.compile(r"([A-Z][A-Z]+(?:,? [A-Z]+)*)(?:\.(?= )|$|(?<=HERE IS PROVED)\.)\s*")


def comment(words, inside=False):
    """A comment of a header. Inside an entry its paragraphs are parts of the entry."""
    words, _, answer = words.partition("@return")
    lines = []
    for kind, block in blocks(words):
        gap = ".IP" if inside and lines else ".PP"
        if kind == "code":
            lines += [gap, *code(without_end(block))]
        elif kind in ("bullet", "number"):
            lines += entry(block)
        else:
            said = " ".join(block)
            if not inside and (title := TITLE.match(said)):
                lines.append(f".SS {inline(title[1].capitalize())}")
                said = said[title.end():]
            lines += ([gap] if not inside or lines else []) + text(said) if said else []
    if answer.strip():
        answer = " ".join(answer.split())
        lines += [".IP" if lines else ".PP"]
        lines += text(f"Other codes than SYNTH_OK: {answer}" if answer.startswith("SYNTH_") else f"Returns {answer}")
    return lines
