"""Reads the pictures of boots that `timeline` prints, and finds their faults. tools/docs and tools/test-programs import
it. `picture_faults` returns a list of words, which is empty if nothing is wrong; traces.py does so of a trace.
"""

import dataclasses
import re
import xml.etree.ElementTree

SVG = "{http://www.w3.org/2000/svg}"
# A picture has so many boxes at most, and so many turns of a processor are recorded.
MOST_BOXES, MOST_TURNS = 2_000, 50_000
# A letter of the font is so wide at most, and so high above and below its base line.
LETTER, ABOVE, BELOW = 7.3, 10, 3
TURN = re.compile(r"turn (\d+) on p(\d), at (\d+) ns: (?:idle, turns in a row (\d+)|(\w+): (.+))", re.DOTALL)
STEPS = re.compile(r".*; steps done (\d+); [^;]+(?:, then ended)?", re.DOTALL)
SHOWN = re.compile(r".*; the first (\d+) of (\d+) turns are shown")


@dataclasses.dataclass
class Boot:
    """A boot: its script, processors and turns, and the lines of its report if these are known."""

    script: str
    processors: int
    turns: int
    report: list = None

    def title(self):
        return next((line[2:] for line in self.script.split("\n") if line.startswith("# ")), "")

    def threads(self):
        return re.findall(r"(?m)^thread (\w+)$", self.script)

    def reported(self, pattern):
        """The lines of the report that have this form, as the parts of each."""
        found = (re.fullmatch(pattern, line) for line in self.report or [])
        return [it.groups() for it in found if it]

    def steps(self):
        """How many steps of each thread are done, as the report says."""
        return {name: int(done) for name, done in self.reported(r"thread (\w+) \w+ (\d+)(?: .*)?")}


def kept_times(page):
    """A page without the times of its turns: all that is the same in each boot on one processor."""
    return re.sub(r", at \d+ ns", "", page)


def sides(shape):
    """The left, upper, right and lower side of a shape."""
    kind = shape.tag.removeprefix(SVG)
    if kind == "text":
        wide, x, y = LETTER * len(shape.text or ""), int(shape.get("x")), int(shape.get("y"))
        left = x if shape.get("text-anchor") == "start" else x - wide / 2
        return left, y - ABOVE, left + wide, y + BELOW
    if kind == "rect":
        x, y, wide, high = (int(shape.get(it)) for it in ("x", "y", "width", "height"))
        return x, y, x + wide, y + high
    if kind == "line":
        xs, ys = ([int(shape.get(it + number)) for number in "12"] for it in "xy")
        return min(xs), min(ys), max(xs), max(ys)
    return None


def places_faults(root):
    """The parts that are outside of the page, and the texts that are over one another."""
    wide, high = int(root.get("width")), int(root.get("height"))
    texts = []
    for shape in root.iter():
        found = sides(shape)
        if found and not (0 <= found[0] and 0 <= found[1] and found[2] <= wide and found[3] <= high):
            yield f"outside of the page: {shape.text or shape.tag}"
        if found and shape.tag == SVG + "text" and shape.text:
            texts.append((found, shape.text))
    texts.sort(key=lambda it: it[0][1])
    for number, (one, text) in enumerate(texts):
        for other, over in texts[number + 1 :]:
            if other[1] >= one[3]:
                break
            if one[0] < other[2] and other[0] < one[2]:
                yield f"a text is over another: {text} and {over}"


class Lane:
    """The boxes of a processor, as far as they are read."""

    def __init__(self):
        self.turns, self.at, self.right, self.was_idle = 0, 0, 0, False

    def faults(self, first, at, idle, box, by_time):
        """What is wrong with its next box."""
        if first != self.turns:
            yield f"turn {first} is after {self.turns} turns"
        if at < self.at:
            yield f"the time of turn {first} is before that of an earlier turn"
        if idle and self.was_idle:
            yield f"turn {first} is idle, as the box before it"
        if not by_time and box[0] < self.right:
            yield f"the box of turn {first} is over the one before it"
        self.turns, self.at, self.right, self.was_idle = first + (idle or 1), at, box[2], bool(idle)


def box_faults(root, boot, by_time):
    """What is wrong with the boxes of turns: their titles, order, lanes and number."""
    lanes, top, before, shown, done, boxes = [Lane() for _ in range(boot.processors)], None, 0, 0, {}, 0
    for shape in root.iter(SVG + "rect"):
        title = shape.findtext(SVG + "title", "")
        if not title.startswith("turn "):
            continue
        found = TURN.fullmatch(title)
        if not found or int(found[2]) >= boot.processors:
            yield f"no title of a turn: {title}"
            continue
        first, processor, at, idle = (int(it or 0) for it in found.groups()[:4])
        box = sides(shape)
        boxes += 1
        top = box[1] - 60 * processor if top is None else top
        if box[1] != top + 60 * processor:
            yield f"not in its lane: {title}"
        if at < before:
            yield f"not in the order of the clock: {title}"
        yield from lanes[processor].faults(first, at, idle, box, by_time)
        before, shown = at, shown + (idle or 1)
        steps = STEPS.fullmatch(found[6] or "")
        if steps:
            # The clock is read after a thread went on, so its next turn may come first.
            done[found[5]] = max(int(steps[1]), done.get(found[5], 0))
    note = next((it.text for it in root.iter(SVG + "text") if (it.text or "").startswith("processors: ")), "")
    everything = boot.processors * boot.turns
    counted = SHOWN.fullmatch(note)
    if counted and (int(counted[1]), int(counted[2])) != (shown, everything):
        yield f"{shown} turns of {everything} are shown, and the note says: {note}"
    if not counted and shown != everything:
        yield f"{shown} turns of {everything} are shown, and the note doesn't say so"
    if boxes > MOST_BOXES or (counted and boxes < MOST_BOXES and boot.turns <= MOST_TURNS):
        yield f"{boxes} boxes"
    wanted = f"processors: {boot.processors}, turns on each: {boot.turns}, placed "
    if not note.startswith(wanted + ("by time" if by_time else "in the order of the clock")):
        yield f"another note: {note}"
    if boot.report is not None and not counted and done != {it: steps for it, steps in boot.steps().items() if steps}:
        yield f"other steps are done than the report says: {done}"


def picture_faults(page, boot, by_time):
    """What is wrong with a picture of a boot."""
    try:
        root = xml.etree.ElementTree.fromstring(page)
    except xml.etree.ElementTree.ParseError as error:
        return [f"not XML: {error}"]
    faults = []
    if root.tag != SVG + "svg" or not page.endswith("</svg>\n"):
        faults.append("not one picture")
    if root.findtext(SVG + "title") != boot.title():
        faults.append(f"another title: {root.findtext(SVG + 'title')}")
    faults += [*places_faults(root), *box_faults(root, boot, by_time)]
    texts = [it.text or "" for it in root.iter(SVG + "text")]
    named = [f"p{it}" for it in range(boot.processors)]
    lines = [*named, *boot.threads(), *(boot.report or [])]
    faults += [f"no text: {line}" for line in lines if line.rstrip() not in (it.rstrip() for it in texts)]
    if boot.report is not None and "\n".join(boot.report) not in "\n".join(texts):
        faults.append("the report's lines are not in their order")
    return faults
