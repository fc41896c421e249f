#!/usr/bin/env python3
"""Runs examples/check.py over folders, and compares what it prints; and the recipe of examples/EDITORS.md over that.

    tests/examples.py [WORD]       (only the cases whose name has this word)

The example of a client is run by scripts.py. The last line is 'N passed, M failed'.
"""

import json
import os
import pty
import re
import select
import shutil
import subprocess
import sys
import time

sys.path.insert(0, os.path.dirname(os.path.abspath(__file__)))
import real_folders
from real_folders import BAD, CLEAN, ERRORS, FLOWD, FOLDER_FAULT, GOOD, MOST_BYTES, TOP, LeftOut, write

CHECK = f"{TOP}/examples/check.py"
LIMIT = 69
CASES = real_folders.CASES = []
HOW = {"env": {**os.environ, "FLOWD": FLOWD}}


def case(test):
    CASES.append(test)
    return test


def checked(*words, **how):
    ran = subprocess.run([CHECK, *words], capture_output=True, timeout=60, **HOW, **how)
    return ran.returncode, ran.stdout.decode(), ran.stderr.decode()


def expect(given, wanted):
    if given != wanted:
        raise AssertionError(f"it is {given}, and not {wanted}")


@case
def an_error_with_its_line(root):
    write(f"{root}/a/b.js", GOOD + b'\texport const \xe4\xbd\xa0: number = "a";\r\n')
    write(f"{root}/c.js", b"\xff")
    line = '    2 | \texport const \u4f60: number = "a";\n      | \t' + " " * 26 + "^\n"
    text = f"a/b.js:2:27 incompatible-type \"a\" number\n{line}c.js:1:1 not-utf8\n    1 | \ufffd\n      | ^\n2 errors in 2 of 2 modules\n"
    expect(checked(".", cwd=root), (ERRORS, text, ""))


@case
def a_folder_without_errors(root):
    write(f"{root}/a.js", GOOD)
    expect(checked(root), (CLEAN, "no errors in 1 module\n", ""))


@case
def colours_at_a_terminal(root):
    write(f"{root}/a.js", BAD)
    try:
        ours, theirs = pty.openpty()
    except OSError as why:
        raise LeftOut("this machine has no terminals") from why
    how = {"env": {**{name: it for name, it in HOW["env"].items() if name != "NO_COLOR"}, "TERM": "xterm"}}
    with os.fdopen(ours, "rb") as terminal, os.fdopen(theirs, "wb") as out:
        ran = subprocess.run([CHECK, "."], cwd=root, stdout=out, timeout=60, **how)
        first = terminal.readline()
    if ran.returncode != ERRORS or not first.startswith(b"\x1b[1ma.js:1:26\x1b[0m \x1b[31mincompatible-type\x1b[0m "):
        raise AssertionError(f"it printed {first} and ended with {ran.returncode}")


@case
def what_is_no_folder(root):
    write(f"{root}/a.js", GOOD)
    for word in (f"{root}/none", f"{root}/a.js"):
        why = f"check.py: {word} can't be listed: it is no folder, may not be read, or has a name that can't be a path\n"
        expect(checked(word), (FOLDER_FAULT, "", why))
    status, out, why = checked()
    if (status, out) != (64, "") or "examples/check.py FOLDER" not in why:
        raise AssertionError(f"it said {why} and ended with {status}")


@case
def folders_that_cannot_be_checked(root):
    write(f"{root}/one/b.js")
    os.truncate(f"{root}/one/b.js", MOST_BYTES + 1)
    expect(checked("one", cwd=root), (1, "", "check.py: one/b.js can't be read\n"))
    for number in range(4097):
        write(f"{root}/many/m{number}.js", b"")
    expect(checked("many", cwd=root), (LIMIT, "", "check.py: many has too many modules: 4,096 are the most\n"))


def examples_of_codes():
    """The codes of the README's table, each with its example; None where that is said in words."""
    with open(f"{TOP}/README.md", encoding="utf-8") as readme:
        rows = readme.read().partition("\n| code, details | example |\n")[2].partition("\n\n")[0]
    return dict(re.findall(r"(?m)^\| `([a-z0-9-]+)`[^|]*\| (?:`(.*)`|.*) \|$", rows))


def codes():
    with open(f"{TOP}/crates/check_values/src/codes.rt", encoding="utf-8") as source:
        names = re.search(r"enum Code \{(.*?)\n\}", source.read(), re.S)[1]
    return {re.sub("(?!^)([A-Z])", r"-\1", it).lower() for it in re.findall(r"(?m)^    (\w+),$", names)}


@case
def each_code_has_an_example_in_the_readme(root):
    """Each of them gives that code, and nothing else in its module."""
    rows = examples_of_codes()
    expect(set(rows), codes())
    words = {"not-utf8": b"\xff", "source-too-long": b" " * 1_048_577}
    for code, text in rows.items():
        shutil.copytree(f"{TOP}/examples/shop", f"{root}/{code}")
        write(f"{root}/{code}/a.js", text.encode() if text else words[code])
        printed = checked(code, cwd=root)[1]
        expect((code, re.findall(r"(?m)^[^ ].*/a\.js:\d+:\d+ (\S+)", printed)), (code, [code]))


@case
def the_recipe_of_an_editor_finds_each_error(root):
    with open(f"{TOP}/examples/EDITORS.md", encoding="utf-8") as page:
        recipe = json.loads(page.read().split("```json\n")[1].split("```")[0])
    pattern = recipe["tasks"][0]["problemMatcher"]["pattern"]
    write(f"{root}/a/b.js", BAD + b"function f(): void { return; f(); }\n")
    _, printed, _ = checked("a", cwd=root)
    found = [it for it in map(re.compile(pattern["regexp"]).match, printed.split("\n")) if it]
    names = ("file", "line", "column", "code", "message")
    told = [tuple(it[pattern[name]] for name in names) for it in found]
    message = 'incompatible-type "a" number'
    expect(told, [("a/b.js", "1", "26", "incompatible-type", message), ("a/b.js", "2", "30", "unreachable-code", "unreachable-code")])


class Watched:
    """check.py that watches a folder."""

    def __init__(self, root, how=HOW):
        self.out = subprocess.Popen([CHECK, "--watch", "."], cwd=root, stdout=subprocess.PIPE, stderr=subprocess.STDOUT, **how)
        self.got = b""

    def expect(self, text):
        """Reads until a summary, and compares what is printed but for the seconds."""
        until = time.monotonic() + 30
        while not re.search(rb"(?m) (modules?(, [0-9.]+ s)?|be read|be a path)\n\Z", self.got):
            if not select.select([self.out.stdout], [], [], max(0, until - time.monotonic()))[0]:
                raise AssertionError(f"it printed {self.got} in half a minute, and not {text}")
            more = os.read(self.out.stdout.fileno(), 65_536)
            if not more:
                raise AssertionError(f"it ended behind {self.got}")
            self.got += more
        printed, self.got = re.sub(rb", [0-9.]+ s\n\Z", b"\n", self.got).decode(), b""
        expect(printed, text)

    def end(self):
        self.out.terminate()
        self.out.wait(60)
        self.out.stdout.close()


def shown(text, line=BAD):
    return f"{text}:1:26 incompatible-type \"a\" number\n    1 | {line.decode()}      | {' ' * 25}^\n"


def put(path, text, size=None):
    """Puts a file at a path at once, so that nobody sees a part of it; with this size, where one is given."""
    write(f"{path}.new", text)
    if size:
        os.truncate(f"{path}.new", size)
    os.replace(f"{path}.new", path)


def counted(root):
    """How check.py is to be run over a program that counts how often it is begun, and the file that has a line for each time."""
    write(f"{root}/program", f'#!/bin/sh\necho begun >>"{root}/begun"\nexec "{FLOWD}" "$@"\n'.encode())
    os.chmod(f"{root}/program", 0o755)
    return {"env": {**os.environ, "FLOWD": f"{root}/program"}}, f"{root}/begun"


@case
def a_folder_that_is_watched(root):
    """One program sees all changes."""
    how, begun = counted(f"{root}/.once")
    write(f"{root}/a.js", BAD)
    watched = Watched(root, how)
    try:
        watched.expect(shown("a.js") + "1 error in 1 of 1 module\n")
        put(f"{root}/b.js", BAD)
        watched.expect("new " + shown("b.js") + "2 errors in 2 of 2 modules\n")
        put(f"{root}/a.js", GOOD)
        watched.expect("gone " + shown("a.js") + "1 error in 1 of 2 modules\n")
        put(f"{root}/b.js", b"// a line\n\n" + BAD)
        watched.expect("1 error in 1 of 2 modules\n")
        os.remove(f"{root}/b.js")
        gone = f"gone b.js:3:26 incompatible-type \"a\" number\n    3 | {BAD.decode()}      | {' ' * 25}^\n"
        watched.expect(gone + "no errors in 1 module\n")
        put(f"{root}/b.js", b"", MOST_BYTES + 1)
        watched.expect("check.py: b.js can't be read\n")
        put(f"{root}/b.js", BAD)
        watched.expect("new " + shown("b.js") + "1 error in 1 of 2 modules\n")
        put(f"{root}/b.js", b"\xff")
        watched.expect("gone " + shown("b.js") + "new b.js:1:1 not-utf8\n    1 | \ufffd\n      | ^\n1 error in 1 of 2 modules\n")
    finally:
        watched.end()
    with open(begun, encoding="ascii") as lines:
        expect(lines.read(), "begun\n")


@case
def a_name_that_is_no_path_comes_into_a_folder_that_is_watched(root):
    write(f"{root}/a.js", GOOD)
    watched = Watched(root)
    try:
        watched.expect("no errors in 1 module\n")
        put(f"{root}/b\n.js", GOOD)
        watched.expect("check.py: . has a name that can't be a path\n")
        os.remove(f"{root}/b\n.js")
        watched.expect("no errors in 1 module\n")
    finally:
        watched.end()


if __name__ == "__main__":
    sys.exit(real_folders.main())
