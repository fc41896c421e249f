#!/usr/bin/env python3
"""Runs ./flowd with scripts over real folders, pipes and files, and compares each byte that it writes.

    tests/scripts.py [WORD]       (only the cases whose name has this word)

The last line is 'N passed, M failed'.
"""

import json
import os
import re
import resource
import select
import signal
import subprocess
import sys
import time

sys.path.insert(0, os.path.dirname(os.path.abspath(__file__)))
import real_folders
from real_folders import BAD, CLEAN, ERRORS, FLOWD, GOOD, MOST_BYTES, SCRIPT_FAULT, SINK_FAULT, TOP, expect, recheck, run, write

BAD_LINE, LIMIT, NO_MEMORY = 65, 69, 70
LONGEST_LINE = 4_194_304
PATIENCE = 300  # seconds of waiting for an answer, at the most
CLIENT = f"{TOP}/examples/client.py"
CASES = real_folders.CASES = []


def case(test):
    CASES.append(test)
    return test


def line(**parts):
    return json.dumps(parts).encode() + b"\n"


RECHECK, STATUS, END = line(do="recheck"), line(do="ask", ask={"what": "status"}), line(do="end")


def edit(path, text):
    return line(do="edit", path=path, text=text.decode())


def delete(path):
    return line(do="delete", path=path)


def touch(path):
    return line(do="touch", path=path)


def stop_at(poll):
    return line(do="recheck", stop=poll)


def done(version, parsed, checked, errors=0):
    return b"recheck %d: %d parsed, %d checked, %d errors\n" % (version, parsed, checked, errors)


def cancelled(poll, version):
    return b"recheck cancelled at poll %d, still %d\n" % (poll, version)


def expect_script(root, script, status, text):
    expect(run(root, stdin=None, input=script), status, text)


@case
def the_errors_of_a_module_are_told(root):
    write(f"{root}/a.js", BAD.rstrip())
    told = b'1 status: 1 errors\n  a.js:1:26 incompatible-type "a" number\n'
    expect_script(root, STATUS, ERRORS, recheck(1, 1) + told)


@case
def an_edit_is_checked_and_told(root):
    script = edit("a.js", GOOD) + STATUS + RECHECK + STATUS
    expect_script(root, script, CLEAN, recheck(0) + b"1 status: 0 errors\n" + done(2, 1, 1) + b"2 status: 0 errors\n")


@case
def errors_stand_in_the_order_of_paths(root):
    write(f"{root}/b.js", b'let y: number = "s";')
    write(f"{root}/a/c.js", GOOD + b'const s: string = "\xc3\xa9"; const y: boolean = 1;\n')
    script = edit("a.js", b"\xc3\xa9") + RECHECK + STATUS + END + b"never read"
    told = [b"  a.js:1:2 parse\n", b"  a/c.js:2:43 incompatible-type 1 boolean\n", b'  b.js:1:17 incompatible-type "s" number\n']
    expect_script(root, script, ERRORS, recheck(2, 2) + done(2, 1, 1, 3) + b"2 status: 3 errors\n" + b"".join(told))


# Folders, and the errors that their status tells.
FOLDERS = {
    "a function without a type for its result": (
        {"a.js": "export const f = function (n: number) { return n; };", "b.js": "import {f} from './a';\nexport const s: string = f(1);"},
        ["a.js:1:14 signature-verification-failure f"],
    ),
    "types of two modules that hold one another": (
        {"a.js": "import type {B} from './b';\nexport type A = {b: ?B};", "b.js": "import type {A} from './a';\nexport type B = {a: ?A};"},
        [],
    ),
    "types of two modules that are one another": (
        {"a.js": "import type {B} from './b';\nexport type A = B;", "b.js": "import type {A} from './a';\nexport type B = A;"},
        ["a.js:2:13 recursive-alias A", "b.js:2:13 recursive-alias B"],
    ),
    "exports of two modules that are one another": (
        {"a.js": "export {x} from './b';", "b.js": "export {x} from './a';"},
        ["a.js:1:9 recursive-definition x", "b.js:1:9 recursive-definition x"],
    ),
    "a call drops what is known of a property": (
        {"a.js": "function g(): void {}\nfunction h(x: {p: ?{q: number}}): number {\n  if (x.p != null) { g(); return x.p.q; }\n  return 0;\n}\n"},
        ["a.js:3:34 incompatible-use null | void | {q: number}"],
    ),
    "a call keeps what is known of a constant": (
        {"a.js": "function g(): void {}\nfunction h(x: {p: ?{q: number}}): number {\n  const y = x.p; if (y != null) { g(); return y.q; }\n  return 0;\n}\n"},
        [],
    ),
    "a property tells which member it is": (
        {
            "a.js": 'type S = {kind: "circle", r: number} | {kind: "square", w: number};\nexport function area(s: S): number {\n'
            '  if (s.kind === "circle") { return s.r; } else { return s.w; }\n}\n'
        },
        [],
    ),
    "the other member lacks the property": (
        {
            "a.js": 'type S = {kind: "circle", r: number} | {kind: "square", w: number};\nexport function area(s: S): number {\n'
            '  if (s.kind === "circle") { return s.r; } else { return s.r; }\n}\n'
        },
        ["a.js:3:60 prop-missing r"],
    ),
    "aliases that lead to themselves, and others that lead to those": (
        {"a.js": "type A = B;\ntype B = A | F;\ntype C = A;\ntype D = D;\ntype E = number;\ntype F = D | E;\n"},
        ["a.js:1:6 recursive-alias A", "a.js:2:6 recursive-alias B", "a.js:4:6 recursive-alias D"],
    ),
    "of a name that is exported twice the first one counts": (
        {
            "a.js": 'export const y: number = 1;\nexport const x: number = 1;\nexport const x: string = "x";\n',
            "b.js": "import {x} from './a';\nconst a: null = x;\n",
        },
        ["a.js:3:14 name-already-bound x", "b.js:2:17 incompatible-type number null"],
    ),
    "a way through a function without a value": (
        {"a.js": "export function f(b: boolean): number {\n  if (b) { return 1; }\n}\n"},
        ["a.js:1:32 incompatible-type void number"],
    ),
    "as many parentheses as may be": ({"a.js": "export const x: number = " + "(" * 200 + "1" + ")" * 200 + ";"}, []),
    "one more": ({"a.js": "export const x: number = " + "(" * 201 + "1" + ")" * 201 + ";"}, ["a.js:1:226 parse"]),
    "some files": (
        {
            "types.js": "// @flow strict\nexport type User = {id: number, name: ?string, tags: Array<string>};",
            "users.js": "import type {User} from './types';\nexport function label(u: User): string {\n  const name = u.name;\n"
            "  if (name != null) { return name; }\n  return \"user \" + u.id;\n}\n",
            "main.js": "import {label} from './users';\nconsole.log(label({id: 7, name: null, tags: [\"a\"]}));\n",
        },
        [],
    ),
}


@case
def the_errors_of_whole_folders(root):
    for name, (folder, errors) in FOLDERS.items():
        for path, text in folder.items():
            write(f"{root}/{name}/{path}", text.encode())
        told = b"1 status: %d errors\n" % len(errors) + b"".join(b"  %s\n" % error.encode() for error in errors)
        expect_script(f"{root}/{name}", STATUS, ERRORS if errors else CLEAN, recheck(len(folder), len(errors)) + told)


@case
def a_source_that_is_not_utf8(root):
    write(f"{root}/a.js", b"\xff")
    write(f"{root}/b.js", b"import {x} from './a';\nexport const y: number = x;")
    expect_script(root, STATUS, ERRORS, recheck(2, 1) + b"1 status: 1 errors\n  a.js:1:1 not-utf8\n")


@case
def an_edit_of_a_type_is_felt_in_other_modules(root):
    write(f"{root}/a.js", b"export type T = number;")
    write(f"{root}/b.js", b"import type {T} from './a';\nexport type U = {t: T};")
    write(f"{root}/c.js", b"import type {U} from './b';\nexport const u: U = {t: 1};")
    script = edit("a.js", b"export type T = string;") + RECHECK + STATUS
    told = b"2 status: 1 errors\n  c.js:2:25 incompatible-type 1 T\n"
    expect_script(root, script, ERRORS, recheck(3) + done(2, 1, 3, 1) + told)


@case
def an_edit_of_a_body_is_not_felt_in_other_modules(root):
    write(f"{root}/a.js", b"export function f(n: number): number { return n; }")
    for number in range(10):
        write(f"{root}/b{number}.js", b"import {f} from './a';\nexport const r: number = f(1);")
    script = edit("a.js", b"export function f(n: number): number { return n + 1; }") + RECHECK
    expect_script(root, script, CLEAN, recheck(11) + done(2, 1, 1))


@case
def a_recheck_that_changes_nothing(root):
    """Nothing waits, or the text is the same, or the path is none, or the folder holds what is there."""
    write(f"{root}/a.js")
    script = RECHECK + edit("a.js", GOOD) + RECHECK + delete("b.js") + RECHECK + touch("a.js") + touch("c.js") + RECHECK
    expect_script(root, script, CLEAN, recheck(1) + b"".join(done(version, 0, 0) for version in range(2, 6)))


# The polls of a recheck: one behind reading, one behind the sources, one behind the dependency lists, one behind each wave of what is
# merged, one behind each batch of 64 that are checked, and one before the commit.


@case
def a_recheck_is_cancelled_at_a_poll(root):
    """A module alone is one wave and one batch: six polls. The edit waits for the next recheck."""
    put = edit("a.js", b"export const n: number = 1;")
    for poll in range(1, 7):
        script = put + stop_at(poll) + STATUS + RECHECK
        told = cancelled(poll, 1) + b"1 status: 0 errors\n" + done(2, 1, 1)
        expect_script(root, script, CLEAN, recheck(0) + told)
    for poll in (7, 8, 2**32 + 1, 2**64 - 1):
        expect_script(root, put + stop_at(poll), CLEAN, recheck(0) + done(2, 1, 1))
    expect_script(root, stop_at(4) + stop_at(5), CLEAN, recheck(0) + cancelled(4, 1) + done(2, 0, 0))


@case
def a_recheck_has_a_poll_for_each_wave(root):
    """Three modules, each of which imports the one before, are three waves: with one batch these are eight polls."""
    write(f"{root}/a.js", b"export type T = number;")
    write(f"{root}/b.js", b"import type {T} from './a';\nexport type U = {t: T};")
    write(f"{root}/c.js", b"import type {U} from './b';\nexport const u: U = {t: 1};")
    put = edit("a.js", b"export type T = string;")
    expect_script(root, put + stop_at(8) + STATUS, CLEAN, recheck(3) + cancelled(8, 1) + b"1 status: 0 errors\n")
    expect_script(root, put + stop_at(9), ERRORS, recheck(3) + done(2, 1, 3, 1))


@case
def a_recheck_has_a_poll_for_each_batch(root):
    """65 modules that know nothing of one another are one wave and two batches: seven polls."""
    puts = b"".join(edit(f"m{number}.js", GOOD) for number in range(65))
    expect_script(root, puts + stop_at(7), CLEAN, recheck(0) + cancelled(7, 1))
    expect_script(root, puts + stop_at(8), CLEAN, recheck(0) + done(2, 65, 65))


@case
def a_new_module_is_found_before_a_folder(root):
    write(f"{root}/x/index.js", b"export const k: number = 1;")
    write(f"{root}/m.js", b"import {k} from './x';\nexport const j: number = k;")
    script = edit("x.js", b'export const k: string = "s";') + RECHECK + STATUS
    told = b"2 status: 1 errors\n  m.js:2:26 incompatible-type string number\n"
    expect_script(root, script, ERRORS, recheck(2) + done(2, 1, 2, 1) + told)


@case
def a_module_that_is_deleted_is_found_no_more(root):
    """A path that is no module may be deleted; it prints nothing. A later edit makes the path a module again."""
    write(f"{root}/a.js")
    write(f"{root}/b.js", b"import {x} from './a';\nexport const y: number = x;")
    script = delete("a.js") + delete("z.js") + RECHECK + STATUS + edit("a.js", GOOD) + RECHECK
    told = b'2 status: 1 errors\n  b.js:1:17 cannot-resolve-module "./a"\n'
    expect_script(root, script, CLEAN, recheck(2) + done(2, 0, 1, 1) + told + done(3, 1, 2))


@case
def a_module_that_is_touched_is_read_again(root):
    """A path that the folder lacks is no module then."""
    write(f"{root}/a.js")
    script = edit("a.js", BAD) + edit("b.js", GOOD) + RECHECK + touch("a.js") + touch("b.js") + RECHECK
    expect_script(root, script, CLEAN, recheck(1) + done(2, 2, 2, 1) + done(3, 1, 1))


@case
def of_a_path_the_last_edit_counts(root):
    script = edit("a.js", BAD) + delete("a.js") + RECHECK + delete("b.js") + edit("b.js", GOOD) + touch("c.js") + edit("c.js", GOOD) + RECHECK
    expect_script(root, script, CLEAN, recheck(0) + done(2, 0, 0) + done(3, 2, 2))


@case
def a_line_of_an_error_is_counted(root):
    script = edit("a.js", GOOD + b'export const y: string = true;\n') + RECHECK + STATUS
    told = b"2 status: 1 errors\n  a.js:2:26 incompatible-type true string\n"
    expect_script(root, script, ERRORS, recheck(0) + done(2, 1, 1, 1) + told)


@case
def columns_count_characters(root):
    """A line ends behind LF alone, and a character is one, of as many bytes as it may be."""
    write(f"{root}/a.js", 'nowhere;\r\rhere;\r\n/*\u00e9*/x;\n/*\u20ac*/y;\n/*\U0001f600\u00e9\u20ac*/z;'.encode())
    names = [b"1:1 cannot-resolve-name nowhere", b"1:11 cannot-resolve-name here", b"2:6 cannot-resolve-name x"]
    names += [b"3:6 cannot-resolve-name y", b"4:8 cannot-resolve-name z"]
    told = b"1 status: 5 errors\n" + b"".join(b"  a.js:%s\n" % name for name in names)
    expect_script(root, STATUS, ERRORS, recheck(1, 5) + told)


@case
def details_are_cut_behind_80_characters(root):
    """A string of so many characters has two quotes besides. Of 81 the first 77 are left, and three dots."""
    line = "const x: number = "
    told = b"1 status: 3 errors\n"
    for name, count in (("a", 75), ("b", 78), ("c", 79)):
        text = '"' + "\u00e9" * count + '"'
        write(f"{root}/{name}.js", f"{line}{text};".encode())
        shown = text if len(text) <= 80 else text[:77] + "..."
        told += f"  {name}.js:1:{len(line) + 1} incompatible-type {shown} number\n".encode()
    expect_script(root, STATUS, ERRORS, recheck(3, 3) + told)


@case
def fields_that_a_command_does_not_name(root):
    """They are ignored; of one that is repeated the last counts."""
    script = b'{"why":[1],"text":"","do":"edit","path":"a.js","stop":0}\n{"do":"rechek","why":1,"do":"recheck"}\n'
    script += b'{"ask":{"what":"status","stop":{}},"do":"ask","path":1}\n{"do":"end","asks":[]}\n\xff\n'
    expect_script(root, script, CLEAN, recheck(0) + done(2, 1, 1) + b"2 status: 0 errors\n")


@case
def lines_that_are_no_command(root):
    """Each is told by its number, also where it is the last one and has no end."""
    lines = (
        b'{"do":"recheck","stop":0}',
        b'{"do":"recheck","stop":-1}',
        b'{"do":"recheck","stop":-0}',
        b'{"do":"recheck","stop":1.0}',
        b'{"do":"recheck","stop":1e0}',
        b'{"do":"recheck","stop":18446744073709551616}',
        b'{"do":"recheck","stop":"1"}',
        b'{"do":"recheck","stop":null}',
        b'{"do":"recheck","stop":[1]}',
        b'{"do":"recheck","stop":1,"stop":0}',
        b'{"do":"recheck","asks":{}}',
        b'{"do":"edit","path":"a/../b.js","text":""}',
        b'{"do":"edit","path":"a.js","text":1}',
        b'{"do":"edit","path":"a.js"}',
        b'{"do":"edit","text":""}',
        b'{"do":"delete"}',
        b'{"do":"delete","path":"a.ts"}',
        b'{"do":"touch","path":["a.js"]}',
        b'{"do":"touch","path":"../a.js"}',
        b'{"do":"ask","ask":"status"}',
        b'{"do":"ask","ask":{"what":"errors"}}',
        b'{"do":"ask"}',
        b'{"do":1}',
        b'{"Do":"end"}',
        b'["do"]',
        b'{"do":"end"',
        b'{"do":"end"} {"do":"end"}',
        b'{"do":"end","\xff":1}',
        b"last",
    )
    for bad in lines:
        for end in (b"", b"\n" + RECHECK):
            expect_script(root, RECHECK + b"\n" + bad + end, BAD_LINE, recheck(0) + done(2, 0, 0) + b"bad line 3\n")


@case
def blank_lines_are_skipped_and_counted(root):
    expect_script(root, b"\n \t\r\n" + RECHECK + b"no line\n" + RECHECK, BAD_LINE, recheck(0) + done(2, 0, 0) + b"bad line 4\n")


@case
def a_bad_line_ends_the_script(root):
    script = edit("a.js", GOOD) + RECHECK + b'{"do":"rechek"}\n' + RECHECK
    expect_script(root, script, BAD_LINE, recheck(0) + done(2, 1, 1) + b"bad line 3\n")


@case
def a_last_line_needs_no_end(root):
    expect_script(root, RECHECK + b'{"do":"recheck"}', CLEAN, recheck(0) + done(2, 0, 0) + done(3, 0, 0))


@case
def the_longest_line(root):
    fill = b" " * (LONGEST_LINE - len(RECHECK) + 1)
    expect_script(root, fill + RECHECK, CLEAN, recheck(0) + done(2, 0, 0))
    expect_script(root, b" " + fill + RECHECK, LIMIT, recheck(0) + b"limit line 4194305\n")


@case
def the_most_lines(root):
    most = 1_048_576
    expect_script(root, b"\n" * most, CLEAN, recheck(0))
    expect_script(root, b"\n" * (most + 1), LIMIT, recheck(0) + b"limit lines 1048577\n")


@case
def the_most_files(root):
    for number in range(1024):
        write(f"{root}/d{number % 37}/m{number}.js", b"")
    script = edit("z.js", b"") + edit("d0/m0.js", GOOD) + RECHECK
    expect_script(root, script, CLEAN, recheck(1024) + b"too many modules 1025\n" + done(2, 1, 1))
    script = touch("z.js") + delete("d0/m0.js") + touch("z.js") + edit("y.js", b"") + RECHECK
    expect_script(root, script, CLEAN, recheck(1024) + b"too many modules 1025\n" * 2 + done(2, 0, 0))
    write(f"{root}/z.js")
    expect_script(root, RECHECK, LIMIT, b"limit files 1025\n")


@case
def a_read_fault_stays_for_the_next_recheck(root):
    write(f"{root}/a.js")
    write(f"{root}/b.js", b"")
    os.truncate(f"{root}/b.js", MOST_BYTES + 1)
    fault = b"recheck cannot read b.js, still 0\n"
    expect_script(root, STATUS + RECHECK, CLEAN, fault + b"0 status: 0 errors\n" + fault)
    talk = Talk(root)
    talk.expect(fault)
    os.truncate(f"{root}/b.js", 0)
    talk.say(RECHECK)
    talk.expect(done(1, 2, 2))
    talk.end(CLEAN)


@case
def a_touched_path_that_cannot_be_read_waits(root):
    """What is read then is what was there, so that nothing is parsed. Where a path can't be read nobody is asked whether to stop."""
    write(f"{root}/a.js", b"")
    talk = Talk(root)
    talk.expect(recheck(1))
    os.truncate(f"{root}/a.js", MOST_BYTES + 1)
    for ask in (RECHECK, stop_at(1)):
        talk.say(touch("a.js") + ask)
        talk.expect(b"recheck cannot read a.js, still 1\n")
    os.truncate(f"{root}/a.js", 0)
    talk.say(RECHECK)
    talk.expect(done(2, 0, 0))
    talk.end(CLEAN)


class Talk:
    """A client that writes a line and reads the answer, as an editor does."""

    def __init__(self, root):
        self.flowd = subprocess.Popen([FLOWD, root], stdin=subprocess.PIPE, stdout=subprocess.PIPE)

    def say(self, text):
        self.flowd.stdin.write(text)
        self.flowd.stdin.flush()

    def expect(self, text):
        got, until = b"", time.monotonic() + PATIENCE
        while len(got) < len(text):
            if not select.select([self.flowd.stdout], [], [], max(0, until - time.monotonic()))[0]:
                raise AssertionError(f"it printed {got} in {PATIENCE} seconds, and not {text}")
            more = os.read(self.flowd.stdout.fileno(), 65_536)
            if not more:
                break
            got += more
        if got != text:
            raise AssertionError(f"it printed {got}, and not {text}")

    def end(self, status):
        self.flowd.stdin.close()
        self.expect_end(status)

    def expect_end(self, status):
        if (self.flowd.stdout.read(), self.flowd.wait(PATIENCE)) != (b"", status):
            raise AssertionError(f"it ended with {self.flowd.returncode}, and not {status}")


@case
def an_editor_writes_a_line_and_reads_the_answer(root):
    talk = Talk(root)
    talk.expect(recheck(0))
    for version in range(2, 40):
        talk.say(edit("a.js", BAD if version % 2 else GOOD))
        talk.say(RECHECK)
        talk.expect(done(version, 1, 1, version % 2))
        talk.say(STATUS)
        shown = b'  a.js:1:26 incompatible-type "a" number\n' if version % 2 else b""
        talk.expect(b"%d status: %d errors\n" % (version, version % 2) + shown)
    talk.end(ERRORS)


@case
def the_example_of_a_client_prints_what_changed(root):
    write(f"{root}/a.js", BAD)
    saved = f"{root}/saved.txt"
    write(saved, GOOD)
    ran = subprocess.run([CLIENT, FLOWD, root, "a.js", saved], stdout=subprocess.PIPE, timeout=60)
    text = done(1, 1, 1, 1) + done(2, 1, 1) + b'- a.js:1:26 incompatible-type "a" number\n'
    if (ran.returncode, ran.stdout) != (CLEAN, text):
        raise AssertionError(f"it printed {ran.stdout} and ended with {ran.returncode}")


def commands_of(page):
    """The commands over the examples that a page shows, each with what it shows that they print."""
    with open(f"{TOP}/{page}", encoding="utf-8") as text:
        blocks = re.findall(r"(?ms)^```(\w*)\n(.*?)^```$", text.read())
    parted = [block.removeprefix("$ ").partition("\n") for kind, block in blocks if not kind and block.startswith("$ ")]
    return [(command, printed.encode()) for command, _, printed in parted if "examples/" in command]


@case
def the_examples_print_what_the_documents_show(root):
    commands = commands_of("README.md") + commands_of("examples/EDITORS.md")
    if len(commands) != 4:
        raise AssertionError(f"the documents show {len(commands)} commands over the examples")
    for command, printed in commands:
        command, env = command.replace("./flowd", FLOWD), {**os.environ, "FLOWD": FLOWD}
        ran = subprocess.run(["bash", "-o", "pipefail", "-c", command], cwd=TOP, env=env, capture_output=True, timeout=60)
        expect((ran.returncode, ran.stdout, ran.stderr), ERRORS, printed)


@case
def a_script_one_byte_at_a_time(root):
    talk = Talk(root)
    talk.expect(recheck(0))
    for byte in edit("a.js", GOOD) + RECHECK:
        talk.say(bytes([byte]))
    talk.expect(done(2, 1, 1))
    talk.end(CLEAN)


@case
def after_the_end_nothing_is_read(root):
    """The pipe stays open: whoever reads on waits for ever."""
    for script in (END, b"\n" * 100 + END, RECHECK + END):
        talk = Talk(root)
        talk.expect(recheck(0))
        talk.say(script)
        talk.expect(done(2, 0, 0) if RECHECK in script else b"")
        talk.expect_end(CLEAN)
        talk.flowd.stdin.close()


@case
def a_whole_line_is_answered_before_more_is_read(root):
    """Each piece that is written has whole lines, and a part of the next one or not."""
    talk = Talk(root)
    talk.expect(recheck(0))
    for version, (before, after) in enumerate([(b"", b""), (b"", b" "), (b" ", b""), (b"\n\n", b"\t")], 2):
        talk.say(before + RECHECK + after)
        talk.expect(done(version, 0, 0))
    talk.end(CLEAN)


@case
def a_script_from_a_file(root):
    write(f"{root}/d/a.js")
    write(f"{root}/script", edit("b.js", GOOD) + RECHECK)
    with open(f"{root}/script", "rb") as script:
        expect(run(f"{root}/d", stdin=script), CLEAN, recheck(1) + done(2, 1, 1))


@case
def a_script_that_cannot_be_read(root):
    write(f"{root}/a.js")
    folder = os.open(root, os.O_RDONLY)
    try:
        expect(run(root, stdin=folder), SCRIPT_FAULT, recheck(1))
    finally:
        os.close(folder)


@case
def an_output_that_breaks_off(root):
    talk = Talk(root)
    talk.expect(recheck(0))
    talk.flowd.stdout.close()
    talk.say(RECHECK)
    if talk.flowd.wait(60) != SINK_FAULT:
        raise AssertionError(f"it ended with {talk.flowd.returncode}")
    talk.flowd.stdin.close()


def with_errors(root, lines):
    """Writes a module with an error a line, and returns what its status prints."""
    text = "".join(f"export const x{number}: string = 1;\n" for number in range(lines))
    write(f"{root}/a.js", text.encode())
    told = "".join(
        f"  a.js:{number + 1}:{len(f'export const x{number}: string = ') + 1} incompatible-type 1 string\n"
        for number in range(lines)
    )
    return recheck(1, lines) + b"1 status: %d errors\n" % lines + told.encode()


@case
def an_output_with_room_for_a_part(root):
    """The system takes a part of a piece, and fails at the rest."""
    text, room = with_errors(f"{root}/d", 100), 1_000

    def limit():
        resource.setrlimit(resource.RLIMIT_FSIZE, (room, room))
        signal.signal(signal.SIGXFSZ, signal.SIG_IGN)

    write(f"{root}/script", STATUS)
    with open(f"{root}/script", "rb") as script, open(f"{root}/out", "wb") as out:
        given = run(f"{root}/d", stdin=script, stdout=out, preexec_fn=limit, restore_signals=False)
    expect((given[0], open(f"{root}/out", "rb").read(), given[2]), SINK_FAULT, text[:room])


@case
def a_stack_that_cannot_be_had(root):
    """Where the thread that does all work can't be started, nothing is done, and the status says so."""
    write(f"{root}/a.js")
    status, out, complained = run(root, before=["sh", "-c", 'ulimit -v 1000000; exec "$@"', "sh"])
    expect((status, out, b""), NO_MEMORY, b"")
    if complained.count(b"\n") != 1 or not complained.startswith(b"flowd: "):
        raise AssertionError(f"it wrote {complained} to standard error")


@case
def a_large_stack_takes_no_memory(root):
    """What waits for a line has the memory that it has touched, beside its own file, and not that of its stack."""
    if not os.path.exists("/proc/self/status"):
        raise real_folders.LeftOut("there is no /proc")
    talk = Talk(root)
    talk.expect(recheck(0))
    with open(f"/proc/{talk.flowd.pid}/status", encoding="ascii") as about:
        sizes = {words[0]: int(words[1]) for words in map(str.split, about) if words[0] in ("VmSize:", "RssAnon:")}
    talk.end(CLEAN)
    if sizes["VmSize:"] < 1 << 20 or sizes["RssAnon:"] > 8 << 10:
        raise AssertionError(f"it has {sizes} kB")


if __name__ == "__main__":
    sys.exit(real_folders.main())
