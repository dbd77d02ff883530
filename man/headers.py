"""Reads the comments of a C header, each with what is declared after it."""

import re

COMMENT = re.compile(r"^/\*\*?(?!<)(.*?)\*/\n", re.M | re.S)
WORDS = re.compile(r"SYNTH_MUST_USE |SYNTH_CALL_ |static inline ")


def plain(comment):
    """The text of a comment, without its stars."""
    lines = [re.sub(r"^ \* ?", "", it).rstrip() for it in comment.strip("\n").split("\n")]
    return "\n".join(lines).strip()


class Thing:
    """A function, a type or a constant, with its comment."""

    def __init__(self, comment, declaration):
        self.comment = comment
        self.is_function = "(" in declaration and not declaration.startswith(("#", "struct", "enum", "typedef"))
        if self.is_function:
            declaration = " ".join(WORDS.sub("", declaration).replace("SYNTH_RESTRICT_", "restrict").split())
            self.name = re.search(r"(\w+)\(", declaration)[1]
        else:
            self.name = re.search(r"#define (\w+)|(?:struct|enum) (\w+) {|(\w+);", declaration)[0]
        self.declaration = declaration

    def constants(self):
        """Of an enum: the name, the number and the comment of each constant."""
        if not self.declaration.startswith("enum"):
            return []
        return re.findall(r"(\w+) = (-?\d+),? */\*\*< (.*?) \*/", self.declaration)


class Group:
    def __init__(self, title, text):
        self.title = title
        self.text = text
        self.things = []


def declared(rest):
    """What is declared at the front of this text, or nothing."""
    ways = [r"#define [^\n]*\n(?!#)", r"(?:typedef )?(?:struct|enum) \w+ \{\n.*?\n\}[^\n]*;", r"typedef [^;{]*;",
            r"(?:SYNTH|static inline|const char|[a-z]\w* )[^;{#]*\([^;{]*\)(?=;|\n\{)"]
    for way in ways:
        if found := re.match(way, rest, re.S):
            return found[0].strip()
    return ""


class Header:
    """The head of a header, its groups by name, and what is in no group."""

    def __init__(self, text):
        self.head = None
        self.groups = {}
        self.loose = []
        group = None
        for found in COMMENT.finditer(text):
            words = plain(found[1])
            if self.head is None:
                self.head = words.removeprefix("@file").strip()
            elif begins := re.match(r"@defgroup (\w+) (.*?)\n(.*)@\{", words, re.S):
                group = Group(begins[2], begins[3].strip())
                self.groups[begins[1]] = group
            elif words.startswith("@}"):
                group = None
            elif declaration := declared(text[found.end():]):
                self.add(Thing(words, declaration), group)

    def add(self, thing, group):
        # What ends in an underscore is the header's own.
        if not thing.name.endswith("_"):
            (group.things if group else self.loose).append(thing)
