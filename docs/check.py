#!/usr/bin/env python3
"""Sees that README.md, the other pages and the manual page name what there is. Ends with status 1 where they don't, and says where.

    python3 docs/check.py

Looked at are links with their headings, paths, names of crates and of what is in them, targets of make, options, statuses, lines, limits
and counts, lists of crates and of edits, heads of definitions, and the length of lines. It needs nothing but Python.
"""
import re
import sys
from collections import Counter
from pathlib import Path

import rooms

TOP = Path(__file__).resolve().parent.parent
CRATES = TOP / "crates"
PAGES = [path for path in [TOP / "README.md", TOP / "CONTRIBUTING.md", TOP / "CHANGELOG.md", *sorted((TOP / "docs").glob("*.md")),
                           TOP / "examples/README.md", TOP / "bench/README.md", TOP / "compare/README.md"] if path.exists()]
# crates of which pages tell that they were there
PAST = {"test_commands", "test_hosts"}
FRONTS = ("spec_", "wasm_", "host_", "dyl_", "merge_", "test_", "rows_", "run_", "replay_", "slice_", "snap_")
COUNTS = {word: number for number, word in enumerate("one two three four five six seven eight nine ten eleven twelve".split(), 1)}
faults = []


def read(path):
    return path.read_text(encoding="utf-8")


def fault(path, text):
    faults.append(f"{path.relative_to(TOP)}: {text}")


def without_blocks(text):
    """A page without its blocks of code."""
    return re.sub(r"^```.*?^```$", "", text, flags=re.M | re.S)


def listed_crates():
    return [line.split(":")[0].split()[0] for line in read(TOP / "crates.txt").split("\n") if line and not line.startswith("#")]


def number(n):
    return f"{n:,}"


# ---- links, headings, paths

def anchors(path):
    """The headings of a page as links name them."""
    found = set()
    for heading in re.findall(r"^#+ (.*)$", without_blocks(read(path)), re.M):
        plain = re.sub(r"[`*]|\]\([^)]*\)|\[", "", heading).strip().lower()
        found.add(re.sub(r"[^\w\- ]", "", plain).replace(" ", "-"))
    return found


def links(path, text):
    for label, target in re.findall(r"\[([\w./-]+\.md)\]\(([^)\s#]+)", text):
        if not target.endswith(label.split("/")[-1]):
            fault(path, f"the link {label} leads to {target}")
    for target in re.findall(r"\]\(([^)\s]+)\)", text) + re.findall(r"^\[\w+\]: (\S+)$", text, re.M):
        if re.match(r"[a-z]+:", target):
            continue
        file, _, anchor = target.partition("#")
        to = (path.parent / file).resolve() if file else path
        if not to.exists():
            fault(path, f"the link {target} leads nowhere")
        elif anchor and anchor not in anchors(to):
            fault(path, f"no heading of {to.name} is named by {target}")


def is_there(word):
    """Whether a path, which may have stars, is one of the repository, or of a crate."""
    word = word.rstrip("/")
    for folder in (TOP, CRATES):
        if "*" in word:
            if any(folder.glob(word)):
                return True
        elif (folder / word).exists():
            return True
    # an edit without its folder and ending
    crate, _, rest = word.partition("/")
    return (CRATES / crate / "must-fail" / f"{rest}.edit").exists()


def paths(path, text, names):
    for word in re.findall(r"`([^`\n]+)`", text):
        first = word.split("/")[0]
        if not re.fullmatch(r"[\w.*/-]+", word) or re.search(r"(^|/)[A-Z]+(\.|/|$)(?!md)", word):
            continue
        if "/" in word and first not in ("", ".", "..") and (first in names or (TOP / first).is_dir()):
            if not is_there(word):
                fault(path, f"there is no {word}")
        elif re.fullmatch(r"[\w-]+\.(py|sh|mjs|md|rattle)", word):
            # the own files of the guide and of the reference are written by examples/guide.sh
            own = any(re.search(r"^```\w+ " + re.escape(word) + "$", read(TOP / name), re.M) for name in ("docs/GUIDE.md", "docs/TOOLS.md"))
            if not own and not any("out" not in file.parts for file in TOP.rglob(word)):
                fault(path, f"no file is named {word}")


# ---- names of code

def words_of_code():
    """All names that stand in the code, and those of each crate."""
    by = {}
    for crate in CRATES.iterdir():
        text = "\n".join(read(file) for file in crate.rglob("*") if file.suffix in (".rt", ".antt", ".edit") and "out" not in file.parts)
        text += "\n" + "\n".join(read(crate / name) for name in ("stdin", "stdout") if (crate / name).exists())
        text += " ".join(file.stem for file in crate.rglob("*") if file.is_file())
        by[crate.name] = set(re.findall(r"[A-Za-z_][\w]*", text))
    others = set()
    for pattern in ("Makefile", "examples/**/*.*", "bench/**/*.*", "compare/*.*", "docs/*.py"):
        for file in TOP.glob(pattern):
            if file.suffix not in (".wasm", ".so", ".md", ".pyc") and file.is_file():
                others |= set(re.findall(r"[A-Za-z_]\w*", file.read_text(encoding="utf-8", errors="replace")))
    return by, others


def crate_names(path, text, names, code):
    """A word like a crate's name is one, or a name of the code."""
    known = set().union(*code.values())
    for word in re.findall(r"`([a-z]+_\w+)`", text):
        if word.startswith(FRONTS) and word not in names and word not in known and word not in PAST:
            fault(path, f"there is no crate and no call {word}")


def calls(path, text, names, code):
    """Names of code in a section or a row about a crate are names of it, or of another crate."""
    known = set().union(*code.values(), names)
    for word in re.findall(r"`((?:[A-Za-z_]\w*::)*[A-Za-z_]\w*)`", text):
        parts = word.split("::")
        if len(parts) > 1 and parts[0] in names:
            missing = [part for part in parts[1:] if part not in code[parts[0]]]
        else:
            looks = len(parts) > 1 or "_" in word or re.match(r"[A-Z][a-z]\w*[A-Z]?", word)
            missing = [part for part in parts if part not in known] if looks else []
        if missing:
            fault(path, f"no code has the name {word}")


def contracts(path, text, names, code):
    """The calls at the end of a row of the table of crates are public functions, types or traits of its crates."""
    for row in re.findall(r"^\| `\w+`.*$", text, re.M):
        crates = [name for name in re.findall(r"`(\w+)`", row.split("|")[1])]
        if not all(name in names for name in crates):
            if any(name.startswith(FRONTS) for name in crates):
                fault(path, f"the row of {', '.join(crates)} names no crate")
            continue
        found = "\n".join(read(file) for crate in crates for file in (CRATES / crate / "src").rglob("*.rt"))
        for word in re.findall(r"`([\w:]+)`", row.split(":")[-1] if ":" in row else ""):
            name = word.split("::")[-1]
            public = re.search(r"\b(pub (?:const )?(?:unsafe )?(?:fn|struct|enum|trait|type) |^    fn )" + name + r"\b", found, re.M)
            if not public and name not in names and not any(name in code[crate] for crate in crates):
                fault(path, f"{', '.join(crates)}: there is no {word}")


# ---- lists and counts

def by_crate(path):
    """The tables of crates in PROVED.md."""
    return re.search(r"^## Crate by crate$(.*?)^## ", read(path), re.M | re.S)[1]


def lists(names):
    house, proved = (TOP / name for name in ("docs/ARCHITECTURE.md", "docs/PROVED.md"))
    folders = {path.name for path in CRATES.iterdir() if (path / "src").is_dir()}
    for name in folders ^ set(names):
        fault(TOP / "crates.txt", f"{name} is a line here or a folder of crates/, and not both")
    groups = len(re.findall(r"^# ", read(TOP / "crates.txt"), re.M))
    said = re.search(r"lists the crates in (\w+) groups", read(house))
    if not said or COUNTS.get(said[1]) != groups:
        fault(house, f"crates.txt has {groups} groups")
    code = [name for name in names if not name.startswith(("test_", "rows_"))]
    rows = [name for row in re.findall(r"^\| (`\w+`(?:, `\w+`)*) \|", by_crate(proved), re.M) for name in re.findall(r"`(\w+)`", row)]
    if rooms.tables() not in read(house):
        fault(house, "the tables of crates are others: `python3 docs/rooms.py --write` makes them")
    heads = re.findall(r"^### `(\w+)`|^- (`spec_\w+`(?:, `spec_\w+`)*):", read(proved), re.M)
    heads = [name for head, group in heads for name in ([head] if head else re.findall(r"`(\w+)`", group))]
    for path, found, wanted in ((proved, rows, code), (proved, heads, code)):
        for name in wanted:
            if found.count(name) == 0:
                fault(path, f"{name} has no line of its own")
        for name in set(found):
            if name.startswith(FRONTS) and not name.endswith("_") and name not in names:
                fault(path, f"{name} has a line, and is no crate")


def edits():
    path = TOP / "docs/TESTED.md"
    text = read(path)
    there = {f"{file.parent.parent.name}/{file.stem}" for file in CRATES.glob("*/must-fail/*.edit")}
    named = set()
    for row in re.findall(r"^\|.*$", text, re.M):
        crate = None
        for word in re.findall(r"`([\w/]+)`", row.split("|")[2]) if row.count("|") > 2 else []:
            crate = word.split("/")[0] if "/" in word else crate
            if crate and (CRATES / crate / "must-fail").is_dir():
                named.add(word if "/" in word else f"{crate}/{word}")
    for name in there - named:
        fault(path, f"the edit {name} isn't told of")
    bodies = re.search(r"^## Wrong bodies$(.*?)^## ", text, re.M | re.S)[1]
    for row in re.findall(r"^\| (?!What it does).*$", bodies, re.M):
        cells = [cell.strip() for cell in row.strip("|").split(" | ")]
        *words, file = re.findall(r"`([\w/.]+)`", cells[2]) or [""]
        if cells[-1] not in ("definition", "equation", "row") or (cells[-1] == "row") != (file == ""):
            fault(path, f"nothing is said of what refuses this: {cells[0]}")
        for word in words if (CRATES / file).is_file() else []:
            if not re.search(r"\b" + word + r"\b", read(CRATES / file)):
                fault(path, f"{file} has no {word}")
    house = read(TOP / "docs/ARCHITECTURE.md")
    told = re.search(r"Those\s+that\s+have\s+some\s+are\s([^.]*)\.", house)
    if not told or set(re.findall(r"`(\w+)`", told[1])) != {name.split("/")[0] for name in there}:
        fault(TOP / "docs/ARCHITECTURE.md", "the crates with edits are others")


def plain_statement(text):
    """A statement in one line, without what says that it is public, and in which universe."""
    return re.sub(r"\s+", " ", re.sub(r"\babbrev\b|\bpub\b|: Type 0 where\b|\bwhere\b", " ", text)).strip()


def laws():
    """LAWS.md names each law, a public function that takes nothing and does nothing, and the file in which each of its statements stands."""
    path = TOP / "docs/LAWS.md"
    text = read(path)
    pattern = r"^pub fn (\w+)\(\)\s*\n((?: +ensures[^\n]*\n)+)\{\s*(?:\w+\(\);\s*)*\}"
    files = {name for name in re.findall(r"`(crates/[\w/]+\.antt)`", text) if (TOP / name).exists()}
    stated = set(re.findall(r"^abbrev pub (\w+)", "\n".join(read(TOP / name) for name in sorted(files)), re.M))
    for crate in sorted(CRATES.iterdir()):
        for file in sorted((crate / "src").rglob("*.rt")) if (crate / "src").is_dir() else []:
            for law, clauses in re.findall(pattern, read(file), re.M):
                if not re.search(r"`(\w+::)?" + law + "`", text):
                    fault(path, f"nothing is said of the law {law} of {crate.name}")
                for name in re.findall(r"\{ (\w+) \}$", clauses, re.M):
                    if name not in stated:
                        fault(path, f"{name}, of the law {law} of {crate.name}, stands in no file that is named here")
    written = {plain_statement(re.sub(r"--.*", "", read(TOP / name))) for name in files}
    for block in re.findall(r"^```$(.*?)^```$", text, re.M | re.S):
        for item in re.split(r"\n(?=record |[A-Z]\w+ =)", block):
            if item.strip() and not any(plain_statement(item) in whole for whole in written):
                fault(path, f"this stands otherwise in the files that are named: {item.strip().splitlines()[0]}")


def heads():
    """The head of each file of definitions names the section that it follows, or says "This profile", or what it serves or is part of. Headings
    of pages and other such files that it names are there."""
    source = (r"WebAssembly Core 2\.0, (?:(?:section|chapter)s? [2-7]|appendix )|DynamicLinking\.md|WASI preview 1"
              r"|This profile: |Serves the (?:contracts|proof) of |Part of the statement of ")
    for file in sorted(CRATES.glob("*/specs/**/*.antt")):
        text = read(file)
        # what is nothing but a list of files has no head
        if not re.search(r"^(?!pub mod |pub use |$)", text, re.M):
            continue
        head = " ".join(re.findall(r"-- (.*)\n", re.match(r"(?:--.*\n)*", text)[0]))
        if not re.search(source, head):
            fault(file, "its head doesn't name what it follows or serves")
        for name, titles in re.findall(r'docs/(\w+)\.md, ((?:(?:, | and )?"[^"]+")+)', head):
            page = TOP / f"docs/{name}.md"
            there = re.findall(r"^#+ (.*)$", without_blocks(read(page)), re.M) if page.exists() else []
            for title in re.findall(r'"([^"]+)"', titles):
                if title not in there:
                    fault(file, f"{page.name} has no heading {title}")
        for names, crate in re.findall(r"((?:[A-Z]\w*(?:, | and ))*[A-Z]\w*) of `(\w+)`", head):
            for name in re.split(r", | and ", names) if crate.startswith(FRONTS) else []:
                if not (CRATES / crate / f"specs/{name}.antt").exists():
                    fault(file, f"{crate} has no file {name} of definitions")


def rows():
    """Each row has its line, and as many are told wrongly on purpose as is said."""
    told = re.search(r"^(\w+) rows of each text are told wrongly on purpose", read(TOP / "docs/TESTED.md"), re.M)
    for crate in ("rows_commands", "rows_modules"):
        names = re.findall(r"^ *row ([^:\n]+):", read(CRATES / crate / "stdin"), re.M)
        *shown, last = read(CRATES / crate / "stdout").strip().split("\n")
        for name, line in zip(names, shown):
            if not line.startswith(name + ": "):
                fault(CRATES / crate / "stdout", f"where the row {name} has its line stands: {line}")
                break
        wrong = sum(not line.endswith(": as told") for line in shown)
        if last != f"{len(names)} rows, {wrong} not as told" or len(names) != len(shown):
            fault(CRATES / crate / "stdout", f"{len(names)} rows have {len(shown)} lines, and the last line says: {last}")
        if told and COUNTS.get(told[1].lower()) != wrong:
            fault(TOP / "docs/TESTED.md", f"{crate} has {wrong} rows that are told wrongly")


def rows_by_kind():
    """How many rows there are of a kind, less those that are told wrongly: of `rows_modules` by their verb; of `rows_commands` by the
    heading that they stand under."""
    found = Counter()
    lines = read(CRATES / "rows_modules/stdout").split("\n")
    wrong = {line.split(": ")[0] for line in lines if not line.endswith(": as told")}
    for name, verb in re.findall(r"^row ([^:\n]+):.*\n(?:#.*\n)*(\w+)", read(CRATES / "rows_modules/stdin"), re.M):
        found[verb] += name not in wrong
    head = ""
    for line in read(CRATES / "rows_commands/stdin").split("\n"):
        title = re.match(r"# (?:---- (\w+)|(Words of `\w+`))", line)
        head = (title[1] or title[2]) if title else head
        found[head] += bool(re.match(r" *row (?!wrong-)[^:]+:", line))
    return found


def counted_rows():
    """The table of TESTED.md has as many rows of a kind as there are."""
    found = rows_by_kind()
    wanted = {
        "decoding": (found["decode"],), "writing": (found["encode"],), "records": (found["record"],),
        "checking, heights": (found["check"] + found["heights"],), "files of generated sets": (found["file"],),
        "snapshots (`snap`)": (found["snapshots"], found["Words of `snap`"]),
        "traces (`trace`, `replay`)": (found["traces"], found["Words of `trace`"]),
        "programs in turns (`board`)": (found["boards"],),
    }
    text = read(TOP / "docs/TESTED.md")
    for group, counts in wanted.items():
        row = re.search(r"^\| " + re.escape(group) + r" \|([^|]*)\|$", text, re.M)
        told = tuple(int(n) for n in re.findall(r"\b(\d+)\b", row[1]))[:len(counts)] if row else ()
        if told != counts:
            fault(TOP / "docs/TESTED.md", f"{group}: there are {', '.join(map(str, counts))} rows")


def house(names):
    """What ARCHITECTURE.md and DECISIONS.md say of all crates together."""
    page, reasons = TOP / "docs/ARCHITECTURE.md", TOP / "docs/DECISIONS.md"
    text = read(page)
    drawn = set(re.findall(r"\w+", re.search(r"^## The rooms$.*?^```$(.*?)^```$", text, re.M | re.S)[1]))
    told = re.search(r"Not\s+drawn\s+are\s([^;]*)\sand\s+the\s+crates\s+of\s+tests", text)
    others = {name for name in names if not name.startswith(("test_", "rows_"))} - drawn
    if not told or set(re.findall(r"`(\w+)`", told[1])) != others:
        fault(page, f"not drawn are {', '.join(sorted(others))}")
    sources = {name: [file for file in (CRATES / name).rglob("*") if file.suffix in (".rt", ".antt") and "out" not in file.parts] for name in names}
    unnamed = 0
    for line in read(TOP / "crates.txt").split("\n"):
        if line and not line.startswith("#"):
            name, below = line.split(":")
            text_of = "\n".join(map(read, sources[name.split()[0]]))
            unnamed += sum(not re.search(r"\b" + other + r"\b", text_of) for other in below.split())
    for path, pattern in ((page, r"(\w+)\s+entries\s+are\s+named\s+by\s+no\s+file"), (reasons, r"name,\s+and\s+(\w+)\s+entries\s+that\s+none\s+does")):
        told = re.search(pattern, read(path))
        if not told or COUNTS.get(told[1]) != unnamed:
            fault(path, f"{unnamed} entries of crates.txt are named by no file of their crate")
    size = {name: sum(read(file).count("\n") for file in sources[name] if file.suffix == ".rt") for name in names}
    told = re.search(r"the\s+largest,\s+with\s+([\d,]+)\s+to\s+([\d,]+),\s+are\s([^.]*)\.", read(reasons))
    largest = sorted(names, key=size.get)[-3:]
    low, high = (int(told[n].replace(",", "")) for n in (1, 2)) if told else (0, 0)
    if set(re.findall(r"`(\w+)`", told[3] if told else "")) != set(largest) or any(not low <= size[name] <= high for name in largest):
        fault(reasons, "the largest crates are " + ", ".join(f"{name} of {size[name]} lines" for name in largest))


def comparisons():
    """Each file of compare/ is named by its page, and each script by its target of make."""
    page = TOP / "compare/README.md"
    makefile = read(TOP / "Makefile")
    for file in sorted(path for path in page.parent.iterdir() if path.is_file() and path != page):
        if f"`{file.name}`" not in read(page):
            fault(page, f"nothing is said of {file.name}")
    for row in re.findall(r"^\| `([\w.]+)` \|.*\| `(\w+)` \|[^|]*\|$", read(page), re.M):
        target = re.search(r"^" + row[1] + r":.*\n((?:\t.*\n)*)", makefile, re.M)
        if not target or f"compare/{row[0]}" not in target[1]:
            fault(page, f"make {row[1]} doesn't run {row[0]}")


def gate():
    """`.ci/run` runs `make test`, which is the documents and a plain `rt ci`."""
    if not re.search(r"^time make test\n\Z", read(TOP / ".ci/run"), re.M):
        fault(TOP / ".ci/run", "it doesn't end by `make test`")
    if not re.search(r"^test: docs\n\trt ci\n(?!\t)", read(TOP / "Makefile"), re.M):
        fault(TOP / "Makefile", "`make test` isn't `make docs` and a plain `rt ci`")


def make_targets():
    makefile = read(TOP / "Makefile")
    targets = set(re.findall(r"^([a-z]+):", makefile, re.M))
    for path in PAGES:
        blocks = "\n".join(re.findall(r"^```.*?^```$", read(path), re.M | re.S))
        for name in re.findall(r"`make ([a-z]+)", read(path)) + re.findall(r"^(?:\$ )?make ([a-z]+)", blocks, re.M):
            if name not in targets:
                fault(path, f"make has no target {name}")
    told = " ".join(re.findall(r"^#.*", makefile, re.M))
    for name in re.search(r"^\.PHONY: (.*)$", makefile, re.M)[1].split():
        if name not in ("all", "clean") and f"make {name}" not in told:
            fault(TOP / "Makefile", f"nothing is said of make {name}")
    installed = set(re.search(r"^SHARED := (.*)$", makefile, re.M)[1].split())
    for path in PAGES:
        for name in re.findall(r"share/wdyl/(\w+\.\w+)", read(path)):
            if name not in installed:
                fault(path, f"make install puts no {name} into share/wdyl")
    for name in installed:
        if f"`{name}`" not in read(TOP / "README.md"):
            fault(TOP / "README.md", f"nothing is said of {name}, which make install puts into share/wdyl")


def numbers():
    """Statuses, options, lines and limits are those of the definitions."""
    pages = {name: read(TOP / name) for name in ("README.md", "docs/FORMATS.md", "docs/TOOLS.md", "man/wdyl.1",
                                                 "tools/completions/wdyl.bash", "tools/completions/_wdyl", "tools/completions/wdyl.fish")}
    plain = {name: text.replace("\\-", "-") for name, text in pages.items()}
    statuses = set(re.findall(r"^(?:status_of|end_status) .*= (\d+)$", read(CRATES / "dyl_front/specs/Status.antt"), re.M))
    for name in ("README.md", "docs/FORMATS.md", "man/wdyl.1"):
        for status in statuses:
            if not re.search(r"(?<!\d)" + status + r"(?!\d)", pages[name]):
                fault(TOP / name, f"nothing is said of status {status}")
    words = read(CRATES / "dyl_words/specs/Words.antt")
    options = ["--" + word for word in re.findall(r'^option_word \w+ = codes "([a-z-]+)"$', words, re.M)]
    commands = ["wdyl " + word for word in re.findall(r'^command_word \w+ = codes "([a-z-]+)"$', words, re.M)]
    if not options or not commands:
        fault(CRATES / "dyl_words/specs/Words.antt", "no commands or options are found here")
    for word in options + commands:
        for name in plain:
            # the completions have the words alone
            word_there = word if not name.startswith("tools/") else word.split(" ")[-1].lstrip("-")
            # the reference is for those who have a compiler, and tells nothing of `gen`
            if not re.search(r"(?<!\w)" + re.escape(word_there) + r"(?![\w-])", plain[name]) and (name, word) != ("docs/TOOLS.md", "wdyl gen"):
                fault(TOP / name, f"nothing is said of {word}")
    head = read(CRATES / "wdyl/src/main.rt").split("#![")[0]
    for word in commands:
        if f"`{word} " not in head:
            fault(CRATES / "wdyl/src/main.rt", f"nothing is said of {word}")
    written = re.search(r"^\.SH FILES AND ENVIRONMENT$(.*?)^\.SH", pages["man/wdyl.1"], re.M | re.S)[1]
    for word in re.findall(r"^\| `wdyl (\w+)[^|`]* OUT\b", pages["README.md"], re.M):
        if word not in re.findall(r"\w+", written):
            fault(TOP / "man/wdyl.1", f"nothing is said of the file that {word} writes")
    shown = re.sub(r"\s+", " ", pages["docs/FORMATS.md"])
    for text in re.findall(r'codes "([^"]+)"', read(CRATES / "dyl_front/specs/Lines.antt") + read(CRATES / "dyl_print/specs/Printed.antt")):
        if text.strip() and text.strip() not in shown:
            fault(TOP / "docs/FORMATS.md", f"nothing is said of the text: {text.strip()}")
    limits = {
        "spec_hosts/specs/Ends.antt": ("most_answers", "most_written"),
        "spec_execution/specs/Limits.antt": ("most_activations", "most_values"),
        "spec_linking/specs/Plans.antt": ("most_table",),
        "spec_linking/specs/Slots.antt": ("table_growth",),
        "spec_linking/specs/Sets.antt": ("most_bytes", "most_members"),
        "dyl_commands/specs/OneFile.antt": ("most_run",),
    }
    for file, named in limits.items():
        for name in named:
            value = re.search(r"^" + name + r" = (\d+)$", read(CRATES / file), re.M)
            if not value:
                fault(CRATES / file, f"{name} isn't a number")
            else:
                # what is one too deep is told there
                wanted = number(int(value[1]) + (name == "most_activations"))
                if not re.search(r"(?<![\d,])" + wanted + r"(?![\d,]\d)", pages["docs/FORMATS.md"]):
                    fault(TOP / "docs/FORMATS.md", f"nothing is said of {name}, which is {number(int(value[1]))}")


def lengths(path, text):
    for line in without_blocks(text).split("\n"):
        if len(line) > 100 and not line.startswith(("|", "<!--")):
            fault(path, f"a line of {len(line)} letters: {line[:40]}..")


def main():
    names = listed_crates()
    code, others = words_of_code()
    for path in PAGES:
        text = read(path)
        inline = without_blocks(text)
        links(path, inline)
        paths(path, inline, names)
        crate_names(path, inline, names, code)
        lengths(path, text)
    known = {**code, "": others}
    for path in PAGES:
        # the guide, the formats, the examples and the benches tell of names that aren't of this code
        if path.parent not in (TOP / "examples", TOP / "bench", TOP / "compare") and path.stem not in ("GUIDE", "TOOLS", "LIBRARIES", "FORMATS"):
            calls(path, without_blocks(read(path)), names, known)
    contracts(TOP / "docs/PROVED.md", by_crate(TOP / "docs/PROVED.md"), names, code)
    lists(names)
    edits()
    laws()
    heads()
    rows()
    counted_rows()
    house(names)
    comparisons()
    gate()
    make_targets()
    numbers()
    if faults:
        sys.exit("\n".join(faults))
    print(f"{len(PAGES)} pages name what there is.")


main()
