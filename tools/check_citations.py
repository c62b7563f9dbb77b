#!/usr/bin/env python3
"""Looks for what comments and pages cite: tools/check_citations.py

Each page that the crates, the scripts and the pages name is there, with the heading that is named beside it, as in
docs/VERIFIER.md ("Rules"). Each source that a page names is there. The toolchain that pages name is that of `rt version`
(left out without `rt`). Each count that a page quotes is the one that the files give (tools/believed.py and below), and
each limit of docs/GLOSSARY.md is the constant's value. Each call or type and each clause that docs/THEOREMS.md and the
pages of docs/CLAIMS.md name as a contract is in the sources of the crate, and docs/CLAIMS.md names the page of each
crate. No two crates define one name in specs/, but for those that docs/DECISIONS.md names ("One meaning for each word").
"""
import collections
import re
import sys

sys.dont_write_bytecode = True
from believed import ACCEPTED, HEADLINE, believed_lines, defined, modules, reached_lines
from built_program import TOP
from toolchain import toolchain_here

PAGES = [TOP / "README.md", *sorted(TOP.glob("docs/*.md")), *sorted(TOP.glob("*/README.md"))]
COMMENTED = ["crates/*/src/**/*.rt", "crates/*/specs/**/*.antt", "crates/*/proofs/**/*.antt", "crates/*/m*/*.edit"]
SCRIPTS = ["tools/*", "benchmarks/*", "examples/**/*.toml", ".ci/run", "crates.txt", "clockbed"]
MARKER = re.compile(r"^\s*(?:--|//[/!]?|#)\s?", re.M)
FENCE = re.compile(r"^```.*?^```$", re.M | re.S)
NAMED = re.compile(r'(?:\]\()?(?<![/\w.$])((?:[\w.]+/)*[A-Z_]{4,}\.md)\)?((?:[,:]? \(?"[^"]+"(?:,? and "[^"]+")*)?)')
HERE = re.compile(r'\("([^"]+)"(?:, (?:below|above))?\)|"([^"]+)", (?:below|above)')
SOURCE = re.compile(r"`((?:[\w-]+/)*[\w-]+\.(?:rt|antt|edit|patch))`")
PLACEHOLDER = re.compile(r"\bNAME\b")
TOOLCHAIN = re.compile(r"rattle-kit-\w+ logic [0-9a-f]+")
WORDS = (
    "none one two three four five six seven eight nine ten eleven twelve thirteen fourteen fifteen sixteen seventeen"
    " eighteen nineteen twenty"
).split()
NUMBER = rf"(\d[\d,]*|{'|'.join(WORDS)})"
COUNTED = re.compile(r"`tools/believed\.py ((?:[^\s`]+ )*[^\s`]+)`: ")
LIMIT = re.compile(r"^\| `([A-Z_]+)` \| ([\d,]+) \| `(\w+)` \|", re.M)
CONSTANT = re.compile(r"\bconst ([A-Z_]+): \w+ = ([^;]+);")
CONSTANT_NAME = re.compile(r"\b[A-Z][A-Z_]+\b")
QUOTED = r"`\w+`(?:(?:, | and )`\w+`)*"
CLAIM = re.compile(rf"({QUOTED})(?:: ({QUOTED}))?(?: \(({QUOTED})\))?")
CLAIMS = [f"docs/{it.name}" for it in sorted(TOP.glob("docs/CLAIMS_*.md"))]
THEME = re.compile(r"^\|[^|\n]*\| \[(\w+\.md)\]\(\1\) \| ([^|\n]+) \|$", re.M)
CELL = re.compile(r"^\|[^|\n]*\|[^|\n]*\| ([^|\n]+) \|$", re.M)
DEFINITION = re.compile(r"^(?:(?:abbrev|unfoldable) pub ([\w-]+) :|pub record (\w+))", re.M)
SHARED_NAMES = {"between", "begins_name", "lines_from", "rows_of", "sizes_in"}
CONTRACT = re.compile(r"^- \*\*Contract\*\*: (.*?)^- ", re.M | re.S)
GROUP = re.compile(rf"({QUOTED})(?: of `[\w/]+`)? \(({QUOTED})\)")
DECLARED = re.compile(r"\b(fn|struct|enum|trait|ensures) (\w+)")


def read(path):
    return path.read_text(encoding="utf-8")


def files(patterns):
    found = {path for pattern in patterns for path in TOP.glob(pattern) if path.is_file() and "out" not in path.parts}
    return [it for it in sorted(found) if it.suffix not in (".svg", ".bpf")]


def joined(text):
    return " ".join(text.split())


def headings(path):
    prose = FENCE.sub("", read(path))
    return {joined(it) for it in re.findall(r"^#+ (.+)$", prose, re.M)}


def page_at(name, path):
    """The file that a page's name means, beside the page that names it, or at the top, or in docs/."""
    beside = [path.parent / name] if path.suffix == ".md" else []
    places = [*beside, TOP / name, TOP / "docs" / name]
    return next((it.resolve() for it in places if it.is_file()), None)


def named_faults(path, text):
    """Pages and headings that the text names and that aren't there."""
    for name, quoted in NAMED.findall(text):
        page = page_at(name, path)
        if not page:
            yield f"{path.relative_to(TOP)}: no page is at {name}"
            continue
        known = headings(page)
        for heading in re.findall(r'"([^"]+)"', quoted):
            if heading not in known:
                yield f'{path.relative_to(TOP)}: {name} has no heading "{heading}"'


def page_faults(path):
    prose = joined(re.sub(r"`[^`]*`", lambda it: it[0].replace('"', ""), FENCE.sub("", read(path))))
    yield from named_faults(path, prose)
    known = headings(path)
    for found in HERE.finditer(NAMED.sub("", prose)):
        heading = found[1] or found[2]
        if heading not in known:
            yield f'{path.relative_to(TOP)}: it has no heading "{heading}"'


def source_faults(sources):
    """Sources that pages name and that no crate has."""
    names = [f"/{it.relative_to(TOP)}" for it in sources]
    for path in PAGES:
        for name in SOURCE.findall(FENCE.sub("", read(path))):
            if not PLACEHOLDER.search(name) and not any(it.endswith(f"/{name}") for it in names):
                yield f"{path.relative_to(TOP)}: no crate has {name}"


def toolchain_faults():
    here = toolchain_here()
    if here is None:
        print("check_citations: no rt here, so the toolchain's name isn't compared")
        return
    for path in PAGES:
        for named in TOOLCHAIN.findall(joined(read(path))):
            if named != here:
                yield f"{path.relative_to(TOP)}: {named} isn't {here}, which rt version tells"


# ---- counts that pages quote


def lines_in(path, pattern):
    return len(re.findall(pattern, read(TOP / path), re.M))


def counted_names():
    """The names for which a page says what tools/believed.py counts."""
    return {names for path in PAGES for names in COUNTED.findall(joined(read(path)))}


def crates():
    return re.findall(r"^([a-z0-9_]+):", read(TOP / "crates.txt"), re.M)


def quoted_counts():
    """Each count: the pages, the words round the number, and what it may be."""
    of_theorem = {reached_lines(HEADLINE), reached_lines(ACCEPTED)}
    yield "*", rf"(?<![\d,])(?<!`: ){NUMBER} definitions,? (?:and )?{NUMBER} lines", of_theorem
    for names in sorted(counted_names()):
        command = re.escape(f"`tools/believed.py {names}`: ")
        yield "*", rf"{command}{NUMBER} definitions, {NUMBER} lines", {reached_lines(names.split())}
    yield "*", rf"{NUMBER} lines of trusted definitions and {NUMBER} apart", {believed_lines()}
    for table in ("encodings", "results", "fields"):
        yield "vectors/README.md", rf"\| `{table}\.tsv` \| {NUMBER} \|", {(lines_in(f"vectors/{table}.tsv", "^.+$") - 1,)}
    for entries in ("kept", "scenarios"):
        yield "vectors/README.md", rf"\| `{entries}\.txt` \| {NUMBER} \|", {(lines_in(f"vectors/{entries}.txt", "^==== "),)}
    yield "docs/GALLERY.md", rf"^# Gallery {NUMBER} runs", {(lines_in("docs/GALLERY.md", r"^## \d+\."),)}
    yield "docs/EXERCISES.md", rf"^# Exercises {NUMBER} tasks", {(lines_in("docs/EXERCISES.md", r"^## \d+\."),)}


def number(text):
    return WORDS.index(text.lower()) if text.lower() in WORDS else int(text.replace(",", ""))


def quotes_of(paths, pattern):
    for path in paths:
        for found in re.finditer(pattern, joined(read(path)), re.I):
            yield path.relative_to(TOP), found[0], tuple(number(it) for it in found.groups())


def count_faults():
    tried = 0
    for pages, pattern, wanted in quoted_counts():
        told = list(quotes_of(PAGES if pages == "*" else [TOP / pages], pattern))
        tried += len(told)
        if not told:
            yield f"{pages}: nothing is like {pattern}"
        for page, words, numbers in told:
            if numbers not in wanted:
                yield f"{page}: {words}: counted are {' or '.join(map(str, sorted(wanted)))}"
    print(f"check_citations: {tried} counts that pages quote")


def name_faults():
    """Names that a page gives to tools/believed.py, and that no definition has."""
    read = modules()
    for names in sorted(counted_names()):
        for name in sorted(it for it in set(names.split()) if not defined(read, it)):
            yield f"tools/believed.py {names}: no definition is {name}"


# ---- limits


def constants():
    """What each constant of the crates is, by its crate and its name."""
    return {
        (path.relative_to(TOP).parts[1], name): said
        for path in sorted(TOP.glob("crates/*/src/**/*.rt"))
        for name, said in CONSTANT.findall(read(path))
    }


def value_of(crate, name, known):
    """The number of a constant, which may name others: of its crate, or of the one crate that has it."""
    said = known.get((crate, name)) or next(it for (_, other), it in sorted(known.items()) if other == name)
    others = {it: value_of(crate, it, known) for it in CONSTANT_NAME.findall(said)}
    return eval(said, {"__builtins__": {}}, others)


def limit_faults():
    known, limits = constants(), LIMIT.findall(read(TOP / "docs/GLOSSARY.md"))
    for name, told, crate in limits:
        if (crate, name) not in known:
            yield f"docs/GLOSSARY.md: {crate} has no constant {name}"
        elif value_of(crate, name, known) != number(told):
            yield f"docs/GLOSSARY.md: {name} of {crate} is {known[crate, name]}, not {told}"
    print(f"check_citations: {len(limits)} limits")


# ---- contracts


def declared_in(crate):
    """The calls and types of a crate, each with the names of its clauses."""
    found, call = {}, None
    for path in sorted((TOP / "crates" / crate / "src").rglob("*.rt")):
        for kind, name in DECLARED.findall(re.sub(r"//.*", "", read(path))):
            if kind == "ensures":
                found[call].add(name)
            else:
                call = name
                found.setdefault(name, set())
    return found


def names_in(text):
    return re.findall(r"`(\w+)`", text or "")


def claims_of(section):
    """What the tables of a section name: calls or types, their clauses, and definitions."""
    for cell in CELL.findall(section):
        for item in cell.split("; "):
            if claim := CLAIM.fullmatch(item):
                yield tuple(map(names_in, claim.groups()))


def theorems_of(section):
    for text in CONTRACT.findall(section):
        for calls, clauses in GROUP.findall(joined(text)):
            yield names_in(calls), names_in(clauses), []


def sections_of(page):
    return re.split(r"^(?=## )", read(TOP / page), flags=re.M)[1:]


def crates_of_heading(section):
    return names_in(section.split("\n")[0])


def theme_faults():
    """Pages whose crates docs/CLAIMS.md doesn't name in the order of their sections."""
    told = {f"docs/{page}": names_in(cell) for page, cell in THEME.findall(read(TOP / "docs/CLAIMS.md"))}
    for page in sorted({*told, *CLAIMS}):
        has = [it for section in sections_of(page) for it in crates_of_heading(section)] if page in CLAIMS else []
        if told.get(page) != has:
            yield f"docs/CLAIMS.md: {page} has sections on {' '.join(has)}, not on {' '.join(told.get(page, []))}"


def contracts():
    """Each contract that the pages name: the page, the crates that may have it, and what it names."""
    for page in CLAIMS:
        for section in sections_of(page):
            for claim in claims_of(section):
                yield page, crates_of_heading(section), claim
    for section in sections_of("docs/THEOREMS.md"):
        for claim in theorems_of(section):
            yield "docs/THEOREMS.md", re.findall(r"`crates/(\w+)", section), claim


def contract_faults():
    declared = {crate: declared_in(crate) for crate in crates()}
    defined = {name for module in modules().values() for name in module.definitions}
    pairs = 0
    for page, among, (calls, clauses, definitions) in contracts():
        has = {call: set().union(*(declared[it].get(call, set()) for it in among)) for call in calls}
        pairs += len(calls) * max(len(clauses), 1)
        for call in calls:
            if not any(call in declared[it] for it in among):
                yield f"{page}: {' and '.join(among)} have no {call}"
            elif clauses and not has[call] & set(clauses):
                yield f"{page}: {call} has no clause {', '.join(clauses)}"
        for clause in clauses:
            if not any(clause in it for it in has.values()):
                yield f"{page}: no clause of {', '.join(calls)} is {clause}"
        for name in definitions:
            if name not in defined:
                yield f"{page}: no definition is {name}"
    print(f"check_citations: {pairs} contracts that pages name")


def shared_name_faults():
    """Names that two crates define."""
    crates_of = collections.defaultdict(set)
    for path in files(["crates/*/specs/**/*.antt"]):
        for names in DEFINITION.findall(read(path)):
            crates_of["".join(names)].add(path.relative_to(TOP).parts[1])
    for name, among in sorted(crates_of.items()):
        if len(among) > 1 and name not in SHARED_NAMES:
            yield f"specs/: {' and '.join(sorted(among))} define {name}"
    print(f"check_citations: {len(crates_of)} names of definitions")


def main():
    sources, scripts = files(COMMENTED), files(SCRIPTS)
    found = [it for path in PAGES for it in page_faults(path)]
    for path in [*sources, *scripts]:
        found += named_faults(path, joined(MARKER.sub("", read(path))))
    found += [*source_faults(sources), *toolchain_faults(), *count_faults(), *name_faults(), *limit_faults()]
    found += [*theme_faults(), *contract_faults(), *shared_name_faults()]
    for it in found:
        print(it)
    print(f"check_citations: {len(PAGES)} pages, {len(sources) + len(scripts)} other files: {len(found)} faults")
    return 1 if found or not sources or not CLAIMS else 0


if __name__ == "__main__":
    sys.exit(main())
