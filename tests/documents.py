#!/usr/bin/env python3
"""Checks that what the documents name is there: files, crates, definitions, functions and cases; and that the README stays short. It
runs no program.

    tests/documents.py [WORD]       (only the cases whose name has this word)

In docs/RULES.md `CRATE/FILE: NAME, NAME` is a file of the crate's specs/ that defines these names in the second column, and one of
its src/ in the third one.
In all documents but docs/PROVING.md a word in backquotes that looks like a path is one, from the top, from crates/, or from a crate
that stands in the same row or item; and a name is one that some file of the crates has. One case counts the ways down crates.txt.
The last line is 'N passed, M failed'.
"""

import functools
import os
import re
import sys

TOP = os.path.dirname(os.path.dirname(os.path.abspath(__file__)))
sys.path[:0] = [f"{TOP}/tests", f"{TOP}/bench"]
import programs
import statement

PATH = re.compile(r"[\w./-]+\.(?:rt|antt|py|sh|md|txt)|(?:[\w-]+/)+")
NAME = re.compile(r"_?[a-z][a-z0-9]*(?:_[a-z0-9]+)*_?|[A-Z][A-Za-z0-9]*|[A-Z]\w*::\w+")
CASES = []


def case(test):
    CASES.append(test)
    return test


def text_of(path):
    with open(f"{TOP}/{path}", encoding="utf-8") as file:
        return file.read()


def uses():
    """The libraries that each crate uses."""
    return {name: used.split() for name, used in re.findall(r"(?m)^(\w+)[^#:\n]*:(.*)$", text_of("crates.txt"))}


def crates():
    return list(uses())


@functools.lru_cache(maxsize=None)
def words_of(path):
    return set(re.findall(r"\w+", text_of(path)))


@functools.lru_cache(maxsize=None)
def words_of_crates():
    """Each word of the crates' files, of the scripts and of the lists of libraries."""
    found = words_of("crates.txt") | words_of("HANDLES")
    for top in ("crates", "tests", "bench", "examples"):
        for at, folders, names in os.walk(f"{TOP}/{top}"):
            folders[:] = [it for it in folders if it not in ("out", "__pycache__")]
            for name in names:
                if name.endswith((".rt", ".antt", ".py")):
                    found |= words_of(os.path.relpath(f"{at}/{name}", TOP))
                found.add(name.partition(".")[0])
            found.update(folders)
    return found


DEFINES = {".antt": r"(?m)^ *(?:(?:pub|abbrev|unfoldable|data|record) )*%s [:({]", ".rt": r"\b(?:fn|struct|enum|trait|const|type) %s\b"}


def defines(path, name):
    return re.search(DEFINES[os.path.splitext(path)[1]] % re.escape(name), text_of(path))


def is_there(path):
    return os.path.exists(f"{TOP}/{path}")


def rows(text):
    """The cells of each row of the tables that stand below the line of dashes."""
    for line in re.findall(r"(?m)^\|(?![ -]*\|?-)(.*)\|$", text):
        yield [it.strip().replace("\\|", "|") for it in re.split(r"(?<!\\)\|", line)]


def wrong_names(cell, part, ending):
    """What a cell of docs/RULES.md names and isn't there."""
    told = re.findall(r"`(\w+)/(\w+): ([\w, ]+)`", cell)
    if not told:
        yield f"no file in {cell}"
    for crate, file, names in told:
        path = f"crates/{crate}/{part}/{file}{ending}"
        if not is_there(path):
            yield path
        else:
            yield from (f"{name} in {path}" for name in names.split(", ") if not defines(path, name))


@case
def the_rules_name_what_is_there():
    cases = {name for name, _, _ in programs.written()} | {name for name, _, _ in programs.FURTHER}
    for row in rows(text_of("docs/RULES.md")):
        if row[1] != "definition":
            yield from wrong_names(row[1], "specs", ".antt")
            yield from wrong_names(row[2], "src", ".rt")
            if row[3] and row[3] not in cases:
                yield f"the case {row[3]!r}"


def codes():
    names = re.findall(r"(?m)^    (\w+),$", text_of("crates/check_values/src/codes.rt").split("enum Code")[1].split("}")[0])
    return {re.sub("(?!^)([A-Z])", r"-\1", it).lower() for it in names}


@case
def each_code_has_a_rule():
    told = set(re.findall(r"(?m)^\| `([a-z0-9-]+)` \|", text_of("docs/RULES.md").split("## Codes")[1]))
    yield from sorted(codes() ^ told)


@case
def the_numbers_of_codes_and_cases_are_told():
    of_program, of_calls = (len(re.findall(rf"(?m)^{word} ", text_of("crates/run_cases/stdin"))) for word in ("status", "test"))
    told = {
        "README.md": [f"There are {len(codes())} codes"],
        "docs/PROVED.md": [
            f"{of_program} of its {of_program + of_calls} cases call",
            f"The other {of_calls} are of calls below the program",
            f"and {len(programs.written())} whole programs, each as a real folder",
        ],
    }
    yield from (f"{page}: {it}" for page, all_told in told.items() for it in all_told if it not in text_of(page))


@case
def each_crate_stands_in_the_map():
    named = set(re.findall(r"`(?:crates/)?(\w+)[`/]", text_of("docs/MAP.md")))
    yield from (it for it in crates() if it not in named)


@case
def each_crate_of_the_map_stands_on_those_above_it():
    rows_of_crates = re.findall(r"(?m)^\| (`\w+`(?:, `\w+`)*) \|", text_of("docs/MAP.md"))
    order = [it for row in rows_of_crates for it in re.findall(r"\w+", row) if it in uses()]
    yield from (f"{it} on {below}" for at, it in enumerate(order) for below in uses()[it] if below in order[at:])


@case
def each_crate_stands_in_what_is_proved():
    named = set(re.findall(r"`(\w+)`", text_of("docs/PROVED.md")))
    yield from (it for it in crates() if it not in named)


MOST_WAYS = 800_000


@case
def the_ways_down_the_libraries_are_few():
    """`rt ci` walks each of them before its first proof, and that of kit 13b sums up files on each, twice a crate: with 13 million it
    took nine hours for that. docs/MAP.md says how a crate hands on what it stands on, so that the lines above it stay short."""
    below = uses()

    @functools.lru_cache(maxsize=None)
    def ways(crate):
        return 1 + sum(ways(it) for it in below.get(crate, ()))

    count = sum(map(ways, below))
    if count > MOST_WAYS:
        yield f"{count:,} ways down crates.txt, of {MOST_WAYS:,} at most"


def places(part):
    """Where the paths of a row or an item may begin: the top, crates/, and the crates that it names."""
    named = [it for it in re.findall(r"`(\w+)[`/]", part) if is_there(f"crates/{it}")]
    yield from ("", "crates/", "docs/", "tests/", "bench/", "examples/", *(f"crates/{it}/{below}" for it in named for below in ("", "specs/", "src/", "proofs/")))


def wrong_words(page):
    for part in re.split(r"\n(?=\||- |\d+\. |#|\n)", text_of(page)):
        for word in re.findall(r"`([^`\n]+)`", part):
            if word in ("src/", "specs/", "proofs/", "must-fail/", "async", "ENOMEM") or "NAME" in word:
                continue
            if PATH.fullmatch(word):
                if not any(is_there(place + word) for place in places(part)):
                    yield f"{page}: the path {word}"
            elif NAME.fullmatch(word) and not set(re.findall(r"\w+", word)) <= words_of_crates():
                yield f"{page}: the name {word}"


@case
def the_map_names_what_is_there():
    yield from wrong_words("docs/MAP.md")


@case
def what_is_proved_names_what_is_there():
    yield from wrong_words("docs/PROVED.md")


def definitions_in(text):
    """The files that are named by `CRATE/specs/FILE.antt`, by `CRATE/specs/` with names in parentheses, or by that alone for all."""
    found = set()
    for crate, file, names in re.findall(r"`(\w+)/specs/(\w*(?:\.antt)?)`(?: \((`[^)]*)\))?", text):
        files = [file] if file else [f"{it}.antt" for it in re.findall(r"`(\w+)`", names)]
        files = files or [it for it in os.listdir(f"{TOP}/crates/{crate}/specs") if it.endswith(".antt") and it not in ("Lib.antt", "formers.antt")]
        found.update(f"{crate}/specs/{it}" for it in files)
    return found


@case
def the_other_documents_name_what_is_there():
    """But for docs/PROVING.md, whose forms have names of no crate."""
    for page in ("README.md", "docs/DECISIONS.md", "docs/PROGRESS.md", "examples/EDITORS.md"):
        yield from wrong_words(page)


@case
def the_definitions_that_one_must_read_are_told():
    """All of them in docs/PROVED.md, and their number in the README."""
    files = statement.stands_on([statement.START])
    whole, bare = (sum(it) for it in zip(*map(statement.counts, files)))
    told = f"{whole:,} lines in {len(files)} files, of which {bare:,} "
    if told not in text_of("README.md"):
        yield f"README.md: {told}"
    told = text_of("docs/PROVED.md").partition("## What one must read")[2].partition("\n## ")[0]
    yield from (f"docs/PROVED.md: {it}" for it in sorted(definitions_in(told) ^ {os.path.relpath(it, f"{TOP}/crates") for it in files}))


@case
def the_index_of_forms_of_proof_names_forms():
    index, forms = text_of("docs/PROVING.md").split("## Definitions", 1)
    yield from (it for it in re.findall(r"(?<!\*)\*([^*|]+)\*(?!\*)", index) if f"- **{it}" not in forms)


@case
def each_form_of_proof_stands_in_the_index():
    index, forms = text_of("docs/PROVING.md").split("## Definitions", 1)
    named = tuple(re.findall(r"(?<!\*)\*([^*|]+)\*(?!\*)", index))
    yield from (it for it in re.findall(r"(?m)^- \*\*(.+?)\*\*", forms) if not it.startswith(named))


def pages():
    return ["README.md", "examples/EDITORS.md", *(f"docs/{it}" for it in sorted(os.listdir(f"{TOP}/docs")))]


def anchors(page):
    """The headings of a page, as links name them."""
    return {re.sub(r"[^\w -]", "", it).lower().replace(" ", "-") for it in re.findall(r"(?m)^#+ (.+)$", text_of(page))}


@case
def links_lead_somewhere():
    for page in pages():
        for target, heading in re.findall(r"\]\(([^)#:]*)(?:#([^)]*))?\)", text_of(page)):
            path = os.path.normpath(f"{os.path.dirname(page)}/{target}") if target else page
            if not is_there(path) or (heading and heading not in anchors(path)):
                yield f"{page}: {target}#{heading}"


MOST_WORDS, LONGEST_SENTENCE = 2_250, 29


def words_in(text):
    return [it for it in text.split() if re.search(r"[^|:-]", it)]


def sentences(text):
    """Those of a page, without what stands in code blocks; a cell of a table is by itself."""
    text = re.sub(r"(?ms)^```.*?^```$", "\n", text)
    for part in re.split(r"\n\s*\n|\n(?=- |\d+\. |\|)|(?<!\\)\|", text):
        yield from re.split(r"(?<=[.?!:])\s+(?=[A-Z`*\[])", part.strip())


@case
def the_readme_is_short():
    text = text_of("README.md")
    if len(words_in(text)) > MOST_WORDS:
        yield f"it has {len(words_in(text))} words"
    yield from (f"the sentence {it!r}" for it in sentences(text) if len(words_in(it)) > LONGEST_SENTENCE)


def main():
    word, failed = sys.argv[1] if len(sys.argv) > 1 else "", 0
    chosen = [it for it in CASES if word in it.__name__.replace("_", " ")]
    for test in chosen:
        wrong = list(test())
        failed += bool(wrong)
        name = test.__name__.replace("_", " ")
        print(f"FAILED: {name}: {len(wrong)} are not so: {'; '.join(wrong[:60])}" if wrong else f"ok: {name}")
    print(f"{len(chosen) - failed} passed, {failed} failed")
    return 1 if failed or not chosen else 0


if __name__ == "__main__":
    sys.exit(main())
