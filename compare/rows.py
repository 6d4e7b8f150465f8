"""The rows of crates/rows_commands/stdin, as files and commands. docs/ROWS.md has how they are written."""

import collections
import os
import re

from modules import name, section, signed, unsigned

HERE = os.path.dirname(os.path.abspath(__file__))
TEXT = os.path.join(HERE, "..", "crates", "rows_commands", "stdin")
HEADER = b"\x00asm\x01\x00\x00\x00"
# the parts that are sections, with their numbers, in the order in which they stand in a file
SECTIONS = {"types": 1, "imports": 2, "functions": 3, "tables": 4, "memories": 5, "globals": 6, "exports": 7, "start": 8, "elems": 9, "count": 12, "bodies": 10, "datas": 11}
# what is told of a command, the first words of commands, and what else a command finds than files and an input
TOLD = ("status", "out", "err", "wrote", "holds", "has", "end", "steps", "answers", "picks", "calls")
COMMANDS = ("wdyl", "words", "both", "snapped", "order", "line")
OTHERS = ("generated", "cut", "fails", "clock", "random", "picker", "table")
# the lines of a module's parts
PARTS = ("memory", "notes", "record", "needed", *SECTIONS, "further", "bytes", "text", "first")


def escaped(text):
    """The bytes of a text, in which a backslash stands before another, before an `n`, or before two digits of a byte."""
    byte = lambda found: {b"n": b"\n", b"\\": b"\\"}.get(found[1]) or bytes([int(found[1], 16)])
    return b"" if text == '""' else re.sub(rb"\\(n|\\|[0-9a-f]{2})", byte, text.encode())


def names_of(word):
    """The names that a word stands for: `f*3` for `f1`, `f2`, `f3`, each other word for itself."""
    front, star, count = word.partition("*")
    return [f"{front}{n}".encode() for n in range(1, int(count) + 1)] if star else [escaped(word)]


def sized(data):
    return unsigned(len(data)) + data


class Words:
    """What words of bytes stand for."""

    def __init__(self):
        self.named = {}

    def add(self, text):
        word, _, rest = text.partition(" ")
        self.named.setdefault(word, self.of(rest))

    def of(self, text):
        return b"".join(map(self.repeated, text.split()))

    def repeated(self, word):
        front, star, count = word.rpartition("*")
        return self.word(front) * int(count) if star and word[0] != "'" else self.word(word)

    def word(self, word):
        if word in self.named:
            return self.named[word]
        if word[0] == "'":
            return escaped(word[1:])
        if word[0] in "=#":
            return (signed if word[0] == "=" else unsigned)(int(word[1:]))
        return bytes([int(word, 16)])


class Parts:
    """A module by its parts."""

    def __init__(self, words, like=None):
        self.words = words
        self.text = dict(like.text if like else {"memory": "00 00 00 00"})

    def imports(self, text):
        module, field, of = text.split(" ", 2)
        return [sized(escaped(module)) + sized(text) + self.words.of(of) for text in names_of(field)]

    def exports(self, text):
        field, _, of = text.partition(" ")
        is_counted = of.endswith(" #")
        of = self.words.of(of.removesuffix(" #"))
        return [sized(text) + of + (unsigned(n) if is_counted else b"") for n, text in enumerate(names_of(field), 1)]

    def items(self, key, text):
        if key == "needed":
            return [sized(text) for text in names_of(text)]
        return self.imports(text) if key == "imports" else self.exports(text) if key == "exports" else [sized(self.words.of(text))]

    def contents(self, key):
        """The contents of a section, empty where there is no text."""
        text = self.text.get(key, "")
        between = {"imports": ", ", "exports": ", ", "bodies": ", ", "needed": " "}.get(key)
        if not text or not between:
            return self.words.of(text)
        listed = [item for part in text.split(between) for item in self.items(key, part)]
        return unsigned(len(listed)) + b"".join(listed)

    def whole(self):
        part = lambda number, key: section(number, self.contents(key)) if self.contents(key) else b""
        record = name("dylink.0") + part(1, "memory") + part(2, "needed") + self.contents("notes")
        record = b"" if self.text.get("record") == "none" else section(0, record)
        return HEADER + record + b"".join(part(number, key) for key, number in SECTIONS.items()) + self.contents("further")

    def bytes(self):
        whole = escaped(self.text["text"]) if "text" in self.text else self.contents("bytes") or self.whole()
        return whole[:int(self.text["first"])] if "first" in self.text else whole


class Command(collections.namedtuple("Command", "key text told parts input others")):
    """A command of a row: its first word and its text, what is told of it, and what it finds: the parts of its files, an input, and lines that a
    program over files of the system doesn't follow."""

    def files(self):
        return {path: parts.bytes() for path, parts in self.parts.items()}


class Row:
    """A row: its name and its commands, and what the next one finds."""

    def __init__(self, name):
        self.name, self.commands, self.files, self.input, self.others = name, [], {}, b"", []

    def add(self, key, text):
        self.commands.append(Command(key, text, [], dict(self.files), self.input, list(self.others)))

    def add_files(self, text, modules):
        for word in text.split():
            paths, _, module = word.partition("=")
            self.files.update({path.decode(): modules[module or paths] for path in names_of(paths)})


class Reader:
    """How far the text has been read."""

    def __init__(self):
        self.words, self.modules, self.rows, self.last = Words(), {}, [], None

    def line(self, key, text):
        row = self.rows[-1] if self.rows else None
        if key == "word":
            self.words.add(text)
        elif key == "module":
            name, _, like = text.partition(" like ")
            self.last = self.modules[name] = Parts(self.words, self.modules.get(like))
        elif key == "row":
            self.rows.append(Row(text.partition(":")[0]))
        elif key in TOLD or key == "order" and row.commands and row.commands[-1].key == "order" and not row.commands[-1].told:
            row.commands[-1].told.append((key, escaped(text)))
        elif key in COMMANDS:
            row.add(key, text)
        elif key == "files":
            row.add_files(text, self.modules)
        elif key in ("input", "reads"):
            row.input = escaped(text) if key == "input" else self.words.of(text)
        elif key in OTHERS:
            row.others.append((key, text))
        elif key in PARTS:
            self.last.text[key] = text
        else:
            raise ValueError(f"no line of a row begins so: {key}")


def rows():
    """All rows of the text."""
    reader = Reader()
    with open(TEXT, encoding="utf-8") as lines:
        for line in lines:
            key, _, text = line.rstrip("\n").lstrip().partition(" ")
            if key and not key.startswith("#"):
                reader.line(key, text)
    return reader.rows
