#!/usr/bin/env python3
"""Lists the definitions that the clauses of `serve` rest on: what one has to believe.

    python3 docs/believe.py            prints the list that stands in docs/ARCHITECTURE.md
    python3 docs/believe.py --check    ends with status 1 where another one stands there
    python3 docs/believe.py --write    puts it there
    python3 docs/believe.py --names    prints each definition, with the one that led to it

It begins with the names in the clauses of `serve`, finds each in the file that `use` names, and goes on with the names in its
definition. Where it can't tell a name of a definition from one that is bound there, it takes it for a definition, so the list may have
too much, and not too little. Names that a definition binds itself (parameters, fields, what stands behind a lambda or `let`) count as no names of others.
Words of `std` are passed over. Apart stands what one command alone leads to (`gen`, `snap`, `trace` with `replay`, `board`), or only the answer
that a section is too long, only the costs of a merged module, or only that its bytes are the shortest, and what some of these lead to together,
and nothing else.
"""
import re
import sys
import textwrap
from pathlib import Path

TOP = Path(__file__).resolve().parent.parent
CRATES = TOP / "crates"
SERVICE = CRATES / "dyl_app/src/service.rt"
PAGE = TOP / "docs/ARCHITECTURE.md"
BEGIN, END = "<!-- made by docs/believe.py -->\n\n", "\n<!-- to here -->\n"

# What is left out to see what it alone leads to.
ALONE = {
    "`gen`": ["dyl_commands.Generated.GenDue", "dyl_commands.Runs.GenWorks"],
    "the answer that a section is too long": ["merge_whole.Merges.IsTooLongFor", "merge_whole.Merges.HasNoLongSection"],
    "what a merged module costs": ["spec_runs.Costs.AgreeWithin", "spec_loading.SetCosts.step_cost", "spec_loading.SetCosts.set_room",
                                   "spec_loading.SetCosts.module_depth"],
    "the shortest bytes of a merged module": ["merge_whole.Merges.AreShortestFor"],
    "`snap`": ["dyl_commands.StartUp.SnapDue", "dyl_commands.StartUp.StartsUp", "dyl_commands.StartUp.HasNoSnapshot",
               "dyl_commands.Due.SnapFaultTells", "dyl_commands.Files.IsSnapped", "dyl_commands.Causes.IsSnapOrder",
               "snap_merge.Answers.amount", "spec_snapshots.Causes.state_after"],
    "`trace` and `replay`": ["dyl_commands.Traced.IsProgram", "dyl_commands.Traced.ProgramTries", "dyl_commands.Traced.ReplayDue",
                             "dyl_commands.Due.TraceDue", "dyl_commands.Due.TooLongTells", "dyl_commands.Due.is_traced",
                             "dyl_commands.Files.TraceLeaves", "dyl_commands.Runs.TraceWorks", "dyl_commands.Causes.ProgramCause",
                             "dyl_commands.Causes.TraceFileCause", "dyl_commands.Causes.TraceCause", "dyl_commands.Causes.IsTraceOrder",
                             "dyl_commands.Counts.ProgramCounts", "dyl_commands.Counts.ReplayCounts", "run_loaded.Courses.Origin",
                             "replay_commands.Written.WritesTrace"],
    "`board`": ["dyl_commands.Sets.AllLink", "dyl_commands.Sets.FirstFault", "dyl_commands.Sets.SetsTry", "dyl_commands.Due.BoardDue",
                "dyl_commands.Due.is_board", "dyl_commands.Runs.BoardWorks", "dyl_commands.Causes.IsBoardOrder",
                "dyl_commands.Counts.BoardCounts"],
}

TOGETHER = "two or more of these together"

USE = re.compile(r"^(?:unfoldable )?(?:pub |ghost )?use\s+([\w.]+?)(?:\.\{([^}]*)\})?(?:\s+as\s+(\w+))?;?\s*$", re.M)
HEAD = re.compile(r"^( *)(?:(?:abbrev|unfoldable) (?:pub )?|(?:pub )?record |(?:pub )?data |pub )(\S+)")
NAME = re.compile(r"[A-Za-z_][\w']*(?:\.[A-Za-z_][\w']*)*")


def own(module):
    """The module in the crate that it is of, where another crate passes it on."""
    parts = module.split(".")
    while len(parts) > 3 and parts[2] == "specs" and (CRATES / parts[3]).is_dir():
        parts[1:4] = [parts[3], "specs"]
    return ".".join(parts)


def read_uses(text):
    """The names that `use` lines bring, and the other names of modules."""
    names, modules = {}, {}
    for module, listed, other in USE.findall(text):
        module = own(module)
        if other and not listed:
            modules[other] = module
        for item in filter(None, (item.strip() for item in listed.split(","))):
            first, _, renamed = item.partition(" as ")
            names[renamed.strip() or first] = (module, first)
    return names, modules


class Specs:
    """One file of definitions."""

    def __init__(self, path):
        text = re.sub(r"(^|\s)--( .*)?$", r"\1", path.read_text(encoding="utf-8"), flags=re.M)
        self.names, self.modules = read_uses(text)
        self.texts, self.parts = {}, {}
        current, around = None, ""
        for line in text.split("\n"):
            if USE.match(line) or line.startswith("pub mod"):
                current = None
            elif line.startswith("module _"):
                current, around = None, line
            elif self.begins(line, around):
                current = HEAD.match(line)[2]
                if not line.startswith(" "):
                    around = ""
                self.texts[current] = [around, line] if around else [line]
            elif current:
                self.texts[current].append(line)
        for name, lines in self.texts.items():
            first = lines[1] if lines[0].startswith("module _") else lines[0]
            if re.match(r" *(pub )?data ", first):
                for line in lines[1:]:
                    case = re.match(r"\s+((?:[\w']+ )+):", line)
                    for part in case[1].split() if case else []:
                        self.parts[part] = name

    @staticmethod
    def begins(line, around):
        head = HEAD.match(line)
        if not head:
            return False
        if head[1] == "":
            return True
        return around != "" and head[1] == "  " and re.match(r"  (abbrev|unfoldable|pub record|record|pub data|data) ", line) is not None


class Reach:
    """What is reached from some names, when some definitions are left out."""

    files = {}

    def __init__(self, without=()):
        self.without = set(without)
        self.found, self.types, self.lost, self.todo = {}, {}, set(), []
        text = SERVICE.read_text(encoding="utf-8")
        names, modules = read_uses(text)
        clauses = text[text.index("pub fn serve") :]
        clauses = re.sub(r"//.*", "", clauses[: clauses.index("\n{")])
        self.follow(clauses, names, modules, {}, "serve")
        for crate, kind in [("dyl_outside", "Files"), ("dyl_outside", "Source"), ("dyl_outside", "Sink"), ("dyl_outside", "Ambient"),
                            ("dyl_front", "Outcome"), ("host_table", "HostTable"), ("host_table", "Entry")]:
            self.want_type(crate, kind, "serve")
        while self.todo:
            work = self.todo.pop()
            work()

    def specs(self, module):
        """The file of a module, if there is one."""
        if module not in self.files:
            parts = module.split(".")
            path = CRATES / parts[1] / Path(*parts[2:]).with_suffix(".antt") if len(parts) > 3 else None
            self.files[module] = Specs(path) if path and path.exists() else None
        return self.files[module]

    def want(self, module, name, why):
        if not module.startswith("Rattle.") or module.startswith("Rattle.std.") or module.startswith("Rattle.clap."):
            return
        parts = module.split(".")
        if ".specs.declared." in module:
            self.want_type(parts[1], [part for part in parts[4:] if not part.startswith("The")][-1], why)
            return
        specs = self.specs(module)
        if specs is None:
            self.lost.add(f"{module}.{name}")
            return
        owner = name if name in specs.texts else specs.parts.get(name)
        if owner is None:
            if name in specs.names:
                self.want(*specs.names[name], why)
            else:
                self.lost.add(f"{module}.{name}")
            return
        known = f"{parts[1]}.{'.'.join(parts[3:])}.{owner}"
        if known not in self.found and known not in self.without:
            self.found[known] = why
            self.todo.append(lambda: self.define(module, specs, owner, known))

    def define(self, module, specs, name, known):
        """Follows the names of a definition, equation by equation."""
        local = {other: (module, other) for other in list(specs.texts) + list(specs.parts)}
        lines = specs.texts[name]
        starts = [n for n, line in enumerate(lines) if n == 0 or re.match(r" *" + re.escape(name) + r"(?=\s|$)", line)]
        is_kept_whole = re.search(r"^ *(pub )?(record|data) ", "\n".join(lines[:2]), re.M) is not None
        if is_kept_whole:
            starts = [0]
        for n, start in enumerate(starts):
            text = "\n".join(lines[start : starts[n + 1] if n + 1 < len(starts) else len(lines)])
            bound = set()
            left = text.split(" = ")[0].split(" =\n")[0] if n > 0 or not HEAD.match(lines[0]) else ""
            for word in NAME.findall(left):
                if word[0].islower() and not self.is_case(word, specs):
                    bound.add(word)
            for group in re.findall(r"λ ([^.]*)\.", text) + re.findall(r"[({]([\w' ]+) :", text):
                bound.update(NAME.findall(group.split(":")[0]))
            bound.update(re.findall(r"\blet (\w+)", text))
            if is_kept_whole:
                bound.update(re.findall(r"^ +pub (\w+) :", text, re.M))
            self.follow(text, specs.names, specs.modules, local, known, bound | {name})

    def is_case(self, word, specs):
        """Whether a word on the left of an equation is a case of a type, and not a variable."""
        if word in specs.parts:
            return True
        if word not in specs.names:
            return False
        module, first = specs.names[word]
        other = self.specs(module)
        return other is not None and first in other.parts

    def follow(self, text, names, modules, local, why, bound=frozenset()):
        text = re.sub(r'"[^"]*"', "", text)
        for found in re.finditer(NAME, text):
            first, *rest = found[0].split(".")
            if found.start() > 0 and text[found.start() - 1] == ".":
                continue
            if rest and first in modules:
                self.want(modules[first], rest[0], why)
            elif first in bound:
                continue
            elif first in local:
                self.want(*local[first], why)
            elif first in names:
                self.want(*names[first], why)
        for shape in [*names, *local]:
            place = local.get(shape) or names[shape]
            if "◌" not in shape or shape in bound or place[0].startswith("Rattle.std."):
                continue
            words = [re.escape(word) for word in shape.split("◌") if word]
            if all(re.search(r"(?<!\S)" + word + r"(?!\S)", text) for word in words):
                self.want(*place, why)

    def want_type(self, crate, kind, why):
        """A type or a trait of the code, wherever its crate has it from."""
        source = CRATES / crate / "src"
        for path in sorted(source.rglob("*.rt")):
            text = re.sub(r"//.*", "", path.read_text(encoding="utf-8"))
            declared = re.search(r"^ *pub(?:\(crate\))? (struct|enum|trait) " + kind + r"\b[^{;]*[{;]", text, re.M)
            if declared:
                if (crate, kind) not in self.types:
                    self.types[crate, kind] = why
                    self.todo.append(lambda: self.declare(crate, kind, text, declared))
                return
        library = (source / "lib.rt").read_text(encoding="utf-8") if (source / "lib.rt").exists() else ""
        place = taken_from(library, crate).get(kind, crate)
        if place != crate:
            self.want_type(place, kind, why)
            return
        if why != "field":
            self.lost.add(f"{crate}::{kind}")

    def declare(self, crate, kind, text, declared):
        """Follows what a declaration names: public fields and cases, what a trait asks for, how a value is seen. A fact that a structure
        holds is proved where one is made, and not followed."""
        body = braced(text, declared)
        names, modules = read_uses("\n".join(line for line in text.split("\n") if line.startswith("ghost use")))
        if declared[1] == "trait":
            self.follow(body, names, modules, {}, f"{crate}::{kind}")
        for model in re.finditer(r"^impl\b[^{]*\bModel for " + kind + r"\b[^{]*{", text, re.M):
            seen = braced(text, model)
            inner = read_uses("\n".join(line.strip() for line in seen.split("\n") if line.strip().startswith("ghost use")))
            seen = re.sub(r"^ *ghost use .*$", "", seen, flags=re.M)
            self.follow(seen, {**names, **inner[0]}, {**modules, **inner[1]}, {}, f"{crate}::{kind}")
        fields = "\n".join(re.findall(r"^ *pub \w+:.*", body, re.M)) if declared[1] == "struct" else body
        fields = re.sub(r"(ghost|ensures|requires).*", "", fields)
        places = taken_from(text, crate)
        for other in sorted(set(re.findall(r"\b[A-Z]\w+\b", fields)) - {kind}):
            self.want_type(places.get(other, crate), other, "field")


def taken_from(text, crate):
    """The crates of the names that a file of code uses."""
    places = {}
    for path, listed, single in re.findall(r"^(?:pub )?use ([\w:]+)::(?:\{([^}]*)\}|(\w+));", text, re.M):
        crates = [part for part in path.split("::") if (CRATES / part).is_dir()]
        for item in (listed or single).split(","):
            places[item.strip()] = crates[-1] if crates else crate
    return places


def braced(text, begin):
    """A declaration, up to the end of its braces."""
    end, depth = begin.end(), 1 if begin[0].endswith("{") else 0
    while depth and end < len(text):
        depth += {"{": 1, "}": -1}.get(text[end], 0)
        end += 1
    return text[begin.start() : end]


def files_of(reach):
    """The definitions that are reached, by crate and file."""
    by = {}
    for known in reach.found:
        crate, rest = known.split(".", 1)
        by.setdefault((crate, rest.rsplit(".", 1)[0]), set()).add(known)
    return by


def shown(names, indent="  "):
    """An item of a list, in lines of at most 100 letters."""
    return textwrap.wrap("- " + names, 100, subsequent_indent=indent, break_long_words=False, break_on_hyphens=False)


def listing(reach):
    """The crates with their files, in the order of crates.txt; apart those that one thing alone leads to; and the types of code."""
    order = [line.split(":")[0].split()[0] for line in (TOP / "crates.txt").read_text().split("\n") if line and not line.startswith("#")]
    less = {what: set(Reach(without).found) for what, without in ALONE.items()}
    less[TOGETHER] = set(Reach([root for roots in ALONE.values() for root in roots]).found)
    groups = {}
    for (crate, name), found in files_of(reach).items():
        whole = len(Reach.files[f"Rattle.{crate}.specs.{name}"].texts)
        parts = {}
        for known in found:
            parts.setdefault(next((what for what, others in less.items() if known not in others), ""), set()).add(known)
        for what, some in parts.items():
            text = f"`{name}`"
            if len(some) <= 3 and len(some) < whole:
                text += " (" + ", ".join(f"`{known.rsplit('.', 1)[1]}`" for known in sorted(some)) + ")"
            groups.setdefault(what, {}).setdefault(crate, []).append(text)
    lines = []
    for what in ["", *ALONE, TOGETHER]:
        if what and what not in groups:
            continue
        lines += ["", f"For {what}{' alone' if what in ALONE else ''}:" if what else "For all of it:", ""]
        for crate in sorted(groups.get(what, {}), key=order.index):
            lines += shown(f"`{crate}`: {', '.join(sorted(groups[what][crate]))}")
    types = {}
    for crate, kind in reach.types:
        types.setdefault(crate, set()).add(kind)
    lines += ["", "Types and traits of code:", ""]
    for crate in sorted(types, key=order.index):
        lines += shown(f"`{crate}`: {', '.join(f'`{kind}`' for kind in sorted(types[crate]))}")
    count, files = len(reach.found), files_of(reach)
    crates = len({crate for crate, _ in files})
    lines += ["", f"These are {count:,} definitions in {len(files)} files of {crates} crates, and {len(reach.types)} types and traits."]
    return "\n".join(lines[1:]) + "\n"


def main():
    reach = Reach()
    if reach.lost:
        sys.exit("these names lead nowhere: " + ", ".join(sorted(reach.lost)))
    if sys.argv[1:] == ["--names"]:
        for known, why in sorted(reach.found.items()):
            print(known, "by", why)
        return
    made = listing(reach)
    page = PAGE.read_text(encoding="utf-8")
    stands = page.split(BEGIN)[1].split(END)[0] if BEGIN in page else ""
    if sys.argv[1:] == ["--write"]:
        PAGE.write_text(page.replace(BEGIN + stands + END, BEGIN + made + END), encoding="utf-8")
    elif sys.argv[1:] == ["--check"]:
        if stands != made:
            sys.exit("docs/ARCHITECTURE.md has another list of what one has to believe: python3 docs/believe.py --write")
    else:
        print(made, end="")


main()
