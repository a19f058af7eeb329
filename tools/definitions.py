#!/usr/bin/env python3
"""Keeps docs/DEFINITIONS.md, the reading path through the definitions, true to the spec files.

    tools/definitions.py            writes the index at the end of the page
    tools/definitions.py --count    prints what each part of the path rests on: the counts, then its files in order
    tools/definitions.py --check    fails with messages if the page, or a name in the documents, is out of date

A spec file rests on another if one of its `use` lines names it. So all of this is by files: a file counts whole.
"""
import re
import sys
import textwrap
from pathlib import Path

ROOT = Path(__file__).resolve().parent.parent
CRATES = ROOT / "crates"
PAGE = ROOT / "docs" / "DEFINITIONS.md"
BEGIN, END = "<!-- index -->", "<!-- end of index -->"
NOT_CRATES = {"scim_type"}  # names in the documents that only look like those of crates

# The parts of the path, in order: a title, and the definitions (crate, file, definition) that the part explains.
PARTS = [
    ("which rule decides", [("scim_policy", "Decide", "decide")]),
    ("what a client sees", [("scim_view", "Groups", "view_with_groups")]),
    ("one request", [("scim_service", "Step", "plan"), ("scim_service", "Step", "next_store")]),
    ("noninterference", [("scim_noninterference", "Laws", "OneRequest"), ("scim_noninterference", "Laws", "TwoLists")]),
    ("bytes to bytes", [("scim_command", "Once", "Answers"), ("scim_token", "Tokens", "Knows"),
                        ("scim_hub", "Events", "Runs"), ("scim_serve", "Serving", "due")]),
    ("a store in a database file", [("scim_store", "Committing", "HasStore")]),
    ("the theorem", [("scim_headline", "Headline", "PromisesAreKept"), ("scim_headline", "Connections", "ConnectionsCanNotTell")]),
]

def spec(crate, module):
    return CRATES / crate / "specs" / (module.replace(".", "/") + ".antt")

def short(path):
    return path.relative_to(CRATES)

def imports(path):
    """The spec files that a file's `use` lines name. Modules that stand for the types in src/ are no files."""
    found = re.findall(r"^use Rattle\.(\w+)\.specs\.([\w.]+?)(?:\.\{.*\})?(?: as \w+)?$", path.read_text(), re.M)
    return [p for p in (spec(crate, module) for crate, module in found) if p.exists()]

def closure(paths, seen):
    """These files and those that they rest on, without those in `seen`, each after the ones that it rests on."""
    order = []
    for path in paths:
        if path not in seen:
            seen.add(path)
            order += closure(imports(path), seen) + [path]
    return order

def counts(paths):
    """How many definitions files have, and how many lines without blank ones and `use` lines."""
    lines = [l for p in paths for l in p.read_text().splitlines() if l.strip() and l[:4] != "use "]
    definitions, mutual = 0, False
    for line in lines:
        mutual = line == "abbrev mutual" or mutual and line[0] == " "
        definitions += bool(re.match(r" +pub " if mutual else r" *(abbrev|unfoldable|pub record|pub data) ", line))
    return f"{definitions:6} definitions {len(paths):4} files {len(lines):5} lines {len(lines) / 40:4.0f} minutes"

def description(path):
    """The first sentence of the comment at the head of a file, cut at 100 characters."""
    comment = re.match(r"(-- .*\n)*", path.read_text())[0].replace("\n-- ", " ").removeprefix("-- ")
    return textwrap.shorten(comment.split(". ")[0].strip().removesuffix("."), 100, placeholder=" ..")

def index(parts):
    """All spec files, crate by crate: those on the path by name and part, the others with their first sentence."""
    out = []
    for crate in re.findall(r"^\w+", (ROOT / "crates.txt").read_text(), re.M):
        files = [f for f in (CRATES / crate / "specs").rglob("*.antt") if f.name not in ("Lib.antt", "code.antt")]
        files.sort(key=lambda f: ("code" in f.parts, f.name))
        name = {f: f"`{f.relative_to(CRATES / crate / 'specs').with_suffix('')}`" for f in files}
        found = [(n, ", ".join(name[f] for f in files if f in part)) for n, part in enumerate(parts, 1)]
        on_path = "; ".join(f"{names} (part {n})" for n, names in found if names)
        lines = textwrap.wrap(f"On the path: {on_path}.", 118) if on_path else []
        lines += [f"- {name[f]}: {description(f)}" for f in files if not any(f in part for part in parts)]
        out += ["", f"### `{crate}`", "", *lines] if lines else []
    return "\n".join(out)

def faults_of_path(page, parts):
    """Where the tables of the numbered sections aren't the parts of the path, in an order to read them."""
    sections = dict(re.findall(r"^## (\d+)\. (.*?)(?=^## |\Z)", page, re.M | re.S))
    above = set()
    for n, part in enumerate(parts, 1):
        rows = re.findall(r"^\| `(\w+/specs/[\w/]+\.antt)` \|", sections.get(str(n), ""), re.M)
        rows = [CRATES / row for row in rows]
        yield from (f"part {n} has no row for {short(path)}" for path in part if path not in rows)
        yield from (f"part {n} has a row for {short(path)} without need" for path in rows if path not in part)
        for path in (path for path in rows if path in part):
            yield from (f"part {n} has {short(path)} before {short(p)}" for p in imports(path) if p not in above)
            above.add(path)

def faults_of_names():
    """Names in backticks in the documents that look like crates or paths, where there is none."""
    for document in [ROOT / "README.md", ROOT / "CONTRIBUTING.md", *sorted((ROOT / "docs").glob("*.md"))]:
        for name in sorted(set(re.findall(r"`([\w./-]+)`", document.read_text())) - NOT_CRATES):
            is_crate = re.match(r"(scim|case)_\w+(/|$)", name)
            is_path = re.match(r"(crates|src|docs|examples|tools)/.", name)
            places = CRATES.glob(f"*/{name}") if name[:4] == "src/" else [(CRATES if is_crate else ROOT) / name]
            if (is_crate or is_path) and not any(place.exists() for place in places):
                yield f"{document.relative_to(ROOT)}: `{name}` doesn't exist"

def main(option):
    for crate, file, name in (root for _, roots in PARTS for root in roots):
        path = spec(crate, file)
        if not path.exists() or not re.search(rf"^ *(abbrev|unfoldable|pub) .*?\b{name} ", path.read_text(), re.M):
            sys.exit(f"{short(path)} has no definition {name}, which is a root of the path")
    page, seen = PAGE.read_text(), set()
    roots = [[spec(crate, file) for crate, file, _ in roots] for _, roots in PARTS]
    parts = [closure(files, seen) for files in roots]
    above, below = page.split(BEGIN)[0], page.split(END)[-1]
    written = f"{above}{BEGIN}\n{index(parts)}\n\n{END}{below}"
    if option == "--count":
        for (title, _), files, part in zip(PARTS, roots, parts):
            print(f"{title}\n  in all  {counts(closure(files, set()))}\n  its own {counts(part)}")
            print(*(f"    {short(path)}: {description(path)}" for path in part), sep="\n")
    elif option == "--check":
        faults = [f"{PAGE.name}: the index is out of date; run tools/definitions.py"] if written != page else []
        sys.exit("\n".join(faults + [*faults_of_path(above, parts), *faults_of_names()]) or None)
    else:
        PAGE.write_text(written)

main(*sys.argv[1:] or [""])
