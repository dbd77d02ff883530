"""Reads the traces of boots that `timeline` prints, and finds their faults: by the trace event format of Chrome, by the
boot, and by its report. tools/test-programs imports it. `trace_faults` returns a list of words, which is empty if
nothing is wrong.
"""

import collections
import decimal
import json

from timelines import MOST_TURNS

# The members of each kind of event in the trace event format of Chrome, besides those of all: name, cat, ph, pid, tid.
ALL = {"name": str, "cat": str, "ph": str, "pid": int, "tid": int}
TIME = decimal.Decimal
NANOSECOND = TIME("0.001")
KINDS = {
    "M": {"args": dict},
    "X": {"ts": TIME, "dur": TIME, "args": dict},
    "i": {"ts": TIME, "s": str, "args": dict},
    "s": {"ts": TIME, "id": int},
    "f": {"ts": TIME, "id": int, "bp": str},
}
NAMES = ("process_name", "process_labels", "process_sort_index", "thread_name", "thread_sort_index")


def event_fault(event):
    """What is wrong with one event by itself, or None."""
    kind = event.get("ph") if isinstance(event, dict) else None
    if kind not in KINDS:
        return "not an event"
    members = {**ALL, **KINDS[kind]}
    if set(event) != set(members):
        return "other members"
    if any(type(event[it]) is not wanted for it, wanted in members.items()):
        return "a member of another type"
    if event["pid"] != 1 or not event["name"] or not event["cat"] or event["tid"] < 0:
        return "another process, or no name"
    times = [event[it] for it in ("ts", "dur") if it in event]
    if any(it < 0 or it.as_tuple().exponent != -3 for it in times):
        return "a time that is not in microseconds with three decimals"
    if kind == "M" and (event["name"] not in NAMES or len(event["args"]) != 1):
        return "not a name of a process or a track"
    if kind == "f" and event["bp"] != "e":
        return "an end that is not bound to the slice around it"
    if kind == "i" and event["s"] not in ("g", "p", "t"):
        return "an instant of no scope"
    return None


def once(pairs):
    """An object of JSON that has no member twice."""
    found = dict(pairs)
    if len(found) != len(pairs):
        raise ValueError("a member is there twice")
    return found


def ended(turn):
    return turn["ts"] + turn["dur"]


def slices(turns, processors):
    """The turns that had a thread at hand, by the clock at their ends, and at one time by the processor and the turn.
    Each has with it when it begins on the track of its thread: it has begun, and the thread's turns before it have
    ended."""
    last = {}
    places = enumerate(it for it in turns if it["tid"] <= processors and "thread" in it["args"])
    for _, turn in sorted(places, key=lambda place: (ended(place[1]), place[1]["tid"], place[0])):
        thread = turn["args"]["thread"]
        begin = max(turn["ts"], last.get(thread, 0))
        last[thread] = ended(turn)
        yield turn, begin


def passed_lines(events, boot):
    """The says and the hears that an arrow joins, with their begins on the tracks of their threads: the nth hear of a
    line from a queue and the nth say of this line into the queue, by the clock, if the say began no later than the hear
    ended. Only threads use the queue, each of their texts is one line, and each processor has all its turns up to
    both."""
    words = [it.split(" ") for it in boot.script.split("\n")]
    others = {name for it in words if it[0] in ("pump", "switch") for name in (*it[2:4], *it[5::2])}
    others |= {it[1] for it in words if it[0] == "say" and "\\0A" in " ".join(it[2:])}
    missed = [it["ts"] for it in events if it["ph"] == "i"]
    passed = {name: collections.defaultdict(list) for name in ("say put", "hear taken")}
    for turn, begin in slices([it for it in events if it["ph"] == "X"], boot.processors):
        args = turn["args"]
        if turn["name"] in passed and "." not in args["queue"] and args["queue"] not in others:
            if all(ended(turn) < at for at in missed):
                passed[turn["name"]][args["queue"], args["line"]].append((turn, begin))
    pairs = [pair for line, hears in passed["hear taken"].items() for pair in zip(passed["say put"][line], hears)]
    return [(say, hear) for say, hear in pairs if say[0]["ts"] <= ended(hear[0])]


def flow_faults(events, boot):
    """What is wrong with the arrows: each has a beginning and an end, and they are those of the lines that passed, from
    the start of the say to the last nanosecond of the hear, on the tracks of their threads."""
    tracks, ends, found = {name: 11 + at for at, name in enumerate(boot.threads())}, {}, []
    for event in (it for it in events if it["ph"] in "sf"):
        ends.setdefault(event["id"], []).append(event)
    for number, pair in ends.items():
        both = sorted(pair, key=lambda it: it["ph"], reverse=True)
        if [it["ph"] for it in both] != ["s", "f"] or len({(it["name"], it["cat"]) for it in both}) != 1:
            yield f"arrow {number} has not one beginning and one end"
        else:
            found.append(tuple(it[part] for it in both for part in ("tid", "ts")))
    track = lambda turn: tracks.get(turn["args"]["thread"])
    wanted = [(track(say), begin, track(hear), max(start, ended(hear) - NANOSECOND))
              for (say, begin), (hear, start) in passed_lines(events, boot)]
    arrows, lines = collections.Counter(found), collections.Counter(wanted)
    yield from (f"an arrow of no line that passed: {it}" for it in arrows - lines)
    yield from (f"no arrow of a line that passed: {it}" for it in lines - arrows)


def track_faults(events, boot):
    """What is wrong with the tracks of the processors: turn after turn, from the boot's begin on, each of them once."""
    begins, most = set(), min(boot.turns, MOST_TURNS)
    for processor in range(boot.processors):
        time, turns = None, 0
        for event in (it for it in events if it["ph"] == "X" and it["tid"] == processor + 1):
            args = event["args"]
            if args.get("processor") != processor:
                yield f"a turn of another processor: {event}"
            if time is None:
                begins.add(event["ts"])
            elif event["ts"] != time:
                yield f"a turn does not begin where the one before it ended: {event}"
            time, turns = event["ts"] + event["dur"], turns + args.get("turns", 1)
        missed = [it["args"] for it in events if it["ph"] == "i" and it["tid"] == processor + 1]
        if turns != most or missed != [{"processor": processor, "turns": boot.turns - most}] * (most < boot.turns):
            yield f"processor {processor} has {turns} turns and not {most}, and lacks {missed}"
    if len(begins) > 1:
        yield "the processors begin at different times"


def overlap_faults(events):
    """The turns that overlap on a track: each has to begin when the one before it has ended, or later."""
    tracks = {}
    for it in (it for it in events if it["ph"] == "X"):
        tracks.setdefault(it["tid"], []).append((it["ts"], ended(it), it["name"]))
    for track, turns in tracks.items():
        turns.sort()
        for one, other in zip(turns, turns[1:]):
            if other[0] < one[1]:
                yield f"turns overlap on track {track}: {one} and {other}"


def thread_faults(events, boot):
    """What is wrong with the tracks of the threads: their turns are those of the processors, and end as reported."""
    names = boot.threads()
    tracks = {f"processor {it}": it + 1 for it in range(boot.processors)}
    wanted = [("synthesis", 0), *tracks.items(), *((name, it + 11) for it, name in enumerate(names))]
    named = [it for it in events if it["ph"] == "M" and it["name"].endswith("_name")]
    if [(it["args"].get("name"), it["tid"]) for it in named] != wanted:
        yield "other names of tracks"
    key = lambda it: (it["ts"], it["dur"], it["name"], json.dumps(it["args"], sort_keys=True))
    turns = [it for it in events if it["ph"] == "X"]
    of_threads = [it for it in turns if it["tid"] > boot.processors]
    wanted = [{**turn, "ts": begin, "dur": ended(turn) - begin} for turn, begin in slices(turns, boot.processors)]
    if sorted(map(key, wanted)) != sorted(map(key, of_threads)):
        yield "the threads have other turns than the processors, or at other times"
    for it in of_threads:
        if it["tid"] - 11 >= len(names) or it["args"]["thread"] != names[it["tid"] - 11]:
            yield f"a turn of another thread: {it}"
        for woken in (str(it["args"].get(member, "")).split() for member in ("woken", "readers", "writers")):
            if woken != [name for name in names if name in woken]:
                yield f"other threads are woken than there are: {it}"
    if boot.report is None or boot.turns > MOST_TURNS:
        return
    done, heard = {}, []
    for args, name in ((it["args"], it["name"]) for it in of_threads):
        if "done" in args:
            done[args["thread"]] = max(args["done"], done.get(args["thread"], 0))
        if name == "hear taken":
            heard.append((args["thread"], str(args["step"]), args["line"]))
    if done != {name: steps for name, steps in boot.steps().items() if steps}:
        yield f"other steps are done than the report says: {done}"
    if sorted(heard) != sorted(boot.reported(r"heard (\w+) (\d+) (.*)")):
        yield f"other lines are heard than the report says: {heard}"


def trace_faults(page, boot):
    """What is wrong with a trace of a boot."""
    try:
        whole = json.loads(page, object_pairs_hook=once, parse_float=decimal.Decimal)
        events = whole["traceEvents"]
    except (ValueError, KeyError, TypeError) as error:
        return [f"not a trace: {error}"]
    if set(whole) != {"traceEvents", "displayTimeUnit"} or whole["displayTimeUnit"] != "ns" or type(events) is not list:
        return ["other members than those of a trace"]
    faults = [f"{fault}: {event}" for event in events if (fault := event_fault(event))]
    return faults or [
        *track_faults(events, boot), *overlap_faults(events), *thread_faults(events, boot),
        *flow_faults(events, boot)]
