#!/usr/bin/env python3
"""Runs ./flowd with scripts that ask, with options, and over made-up folders, and compares each byte that it writes.

    tests/asks.py [WORD]       (only the cases whose name has this word)

All programs of programs.txt are asked for the errors of each module, and for those of each module's own text as one that is not
saved. The last line is 'N passed, M failed'.
"""

import os
import subprocess
import sys

sys.path.insert(0, os.path.dirname(os.path.abspath(__file__)))
import programs
import real_folders
from real_folders import BAD_WORDS, CLEAN, ERRORS, FLOWD, GOOD, USAGE, expect, recheck, run, write
from scripts import BAD_LINE, CLIENT, LIMIT, RECHECK, STATUS, delete, done, edit, expect_script, line, stop_at

CASES = real_folders.CASES = []


def case(test):
    CASES.append(test)
    return test


def ask(what, **parts):
    return line(do="ask", ask={"what": what, **parts})


# A realistic folder.
SHOP = {
    "types.js": "// @flow strict\nexport type User = {id: number, name: ?string, tags: Array<string>};",
    "users.js": """import type {User} from './types';
export function label(u: User): string {
  const name = u.name;
  if (name != null) { return name; }
  return "user " + u.id;
}""",
    "main.js": "import {label} from './users';\nconsole.log(label({id: 7, name: null, tags: [\"a\"]}));",
}


def write_all(root, modules):
    for path, text in modules.items():
        write(f"{root}/{path}", text.encode())


def expect_asked(root, modules, asked, status=CLEAN, errors=0):
    """Over these modules each question has this answer."""
    write_all(root, modules)
    script, told = b"".join(it for it, _ in asked), "".join(it for _, it in asked).encode()
    expect_script(root, script, status, recheck(len(modules), errors) + told)


@case
def all_that_can_be_asked(root):
    asked = [
        (ask("importers", path="types.js"), "1 importers types.js: 1 modules\n  users.js\n"),
        (ask("type-at-pos", path="users.js", line=4, col=31), "1 type-at-pos users.js:4:31: string\n"),
        (
            ask("signature", path="types.js"),
            "1 signature types.js: 1 exports\n  type User is types.js#User\n"
            "  alias User = {id: number, name: null | void | string, tags: Array<string>}\n",
        ),
        (ask("type-at-pos", path="types.js", line=1, col=1), "1 no expression types.js:1:1\n"),
        (ask("find-module", path="users.js", spec="./types"), "1 find-module users.js: types.js\n"),
        (ask("find-module", path="users.js", spec="react"), "1 find-module users.js: none\n"),
        (ask("ls"), "1 ls: 3 modules\n  main.js\n  types.js\n  users.js\n"),
        (ask("errors", path="main.js"), "1 errors main.js: 0 errors\n"),
        (
            ask("check-contents", path="main.js", text="import {label} from './users';\nlabel(1);"),
            "1 check-contents main.js: 1 errors\n  main.js:2:7 incompatible-type 1 User\n",
        ),
        (ask("errors", path="main.js"), "1 errors main.js: 0 errors\n"),
        (ask("status"), "1 status: 0 errors\n"),
    ]
    expect_asked(root, SHOP, asked)


@case
def a_path_that_is_no_module(root):
    kinds = [
        ask("errors", path="z.js"),
        ask("check-contents", path="z.js", text=""),
        ask("type-at-pos", path="z.js", line=1, col=1),
        ask("find-module", path="z.js", spec="./a"),
        ask("importers", path="z.js"),
        ask("signature", path="z.js"),
    ]
    expect_asked(root, {}, [(it, "1 unknown path z.js\n") for it in kinds] + [(ask("ls"), "1 ls: 0 modules\n")])


@case
def what_is_committed_is_asked(root):
    """Neither an edit that waits nor a recheck that was cancelled is felt."""
    asks = ask("errors", path="a.js") + ask("signature", path="a.js") + ask("ls")
    before = "errors a.js: 0 errors\n", "signature a.js: 1 exports\n  value x: number\n", "ls: 1 modules\n  a.js\n"
    after = (
        'errors a.js: 1 errors\n  a.js:1:27 incompatible-type "a" boolean\n',
        "signature a.js: 1 exports\n  value x: boolean\n",
        "ls: 2 modules\n  a.js\n  b.js\n",
    )
    told = lambda version, answers: "".join(f"{version} {it}" for it in answers).encode()
    write(f"{root}/a.js", GOOD)
    edits = edit("a.js", b'export const x: boolean = "a";') + edit("b.js", b"")
    script = asks + edits + asks + stop_at(2) + asks + RECHECK + asks
    printed = recheck(1) + told(1, before) * 2 + b"recheck cancelled at poll 2, still 1\n" + told(1, before) + done(2, 2, 2, 1) + told(2, after)
    expect_script(root, script, ERRORS, printed)


@case
def a_text_that_is_not_saved(root):
    """It is checked as the module's, its imports among all modules, against what they say; and nothing changes."""
    modules = {"a.js": "export type T = {p: number};\nexport const v: T = {p: 1};", "b.js": "import {v} from './a';\nconst n: number = v.p;"}
    asked = [
        (ask("check-contents", path="b.js", text=""), "1 check-contents b.js: 0 errors\n"),
        (
            ask("check-contents", path="b.js", text="import {v} from './a';\nconst s: string = v.p;"),
            "1 check-contents b.js: 1 errors\n  b.js:2:19 incompatible-type number string\n",
        ),
        (
            ask("check-contents", path="b.js", text="import {w} from './a';\nimport {x} from './c';"),
            "1 check-contents b.js: 2 errors\n  b.js:1:9 missing-export w\n  b.js:2:17 cannot-resolve-module \"./c\"\n",
        ),
        (ask("check-contents", path="a.js", text="export const x = ("), "1 check-contents a.js: 1 errors\n  a.js:1:19 parse\n"),
        (
            ask("check-contents", path="a.js", text="type U = {q: U, r: string};\nfunction f(u: U): number { return u.q.r; }"),
            "1 check-contents a.js: 1 errors\n  a.js:2:35 incompatible-type string number\n",
        ),
        (ask("errors", path="b.js"), "1 errors b.js: 0 errors\n"),
        (ask("status"), "1 status: 0 errors\n"),
    ]
    expect_asked(root, modules, asked)


@case
def the_aliases_of_a_text_that_is_not_saved(root):
    """Its own come first, and then those of the committed signature at its path, where others' names lead back to it."""
    modules = {
        "a.js": "import {v} from './b';\ntype B = number;\nexport type A = {n: number};\nexport type W = B | string;\nconst n: number = v.n;",
        "b.js": "import type {A, W} from './a';\nexport const v: A = {n: 1};\nexport type V = W;",
    }

    def told(text, *errors):
        return ask("check-contents", path="a.js", text=text), "".join(f"{it}\n" for it in (f"1 check-contents a.js: {len(errors)} errors", *errors))

    asked = [
        # no alias of that name: the committed one
        told("import {v} from './b';\nconst s: string = v.n;", "  a.js:2:19 incompatible-type number string"),
        # its own one
        told("import {v} from './b';\ntype A = {n: string};\nconst s: string = v.n;"),
        # the name is that of a value, and of an import of the module's own export: the committed one
        told("import {v} from './b';\nconst A: number = 1;\nconst s: string = v.n;", "  a.js:3:19 incompatible-type number string"),
        told("import type {A} from './a';\nfunction f(x: A): string { return x.n; }", "  a.js:2:35 incompatible-type number string"),
        # from its own one through the committed one back to it
        told("import type {V} from './b';\ntype B = V;", "  a.js:2:6 recursive-alias B"),
        # and by the committed ones alone
        told("import type {V} from './b';\nfunction f(v: V): boolean { return v; }", "  a.js:2:36 incompatible-type V boolean"),
        (ask("errors", path="a.js"), "1 errors a.js: 0 errors\n"),
    ]
    expect_asked(root, modules, asked)


@case
def who_imports_a_module(root):
    """By the module that a specifier finds, however it is written."""
    modules = {
        "a.js": "import {x} from './lib/m';",
        "b.js": "import {x} from './lib/m.js';\nimport {x as z} from './lib/m';",
        "c/d.js": "export {x} from '../lib/m';",
        "e.js": "import {x} from './c/../lib/m';",
        "f.js": "import {y} from './lib';",
        "lib/index.js": "import type {T} from './m';\nexport const y: number = 1;",
        "lib/m.js": "export const x: number = 1;\nexport type T = number;",
        "m.js": "",
    }
    asked = [
        (ask("importers", path="lib/m.js"), "1 importers lib/m.js: 5 modules\n  a.js\n  b.js\n  c/d.js\n  e.js\n  lib/index.js\n"),
        (ask("importers", path="lib/index.js"), "1 importers lib/index.js: 1 modules\n  f.js\n"),
        (ask("importers", path="m.js"), "1 importers m.js: 0 modules\n"),
        (ask("find-module", path="f.js", spec="./lib"), "1 find-module f.js: lib/index.js\n"),
        (ask("find-module", path="c/d.js", spec="../m.js"), "1 find-module c/d.js: m.js\n"),
        (ask("find-module", path="c/d.js", spec="./m"), "1 find-module c/d.js: none\n"),
    ]
    expect_asked(root, modules, asked)


@case
def what_a_module_exports(root):
    """Exports and aliases by their names; an alias that leads back to itself by its name."""
    modules = {
        "a.js": """type Tree = {left: ?Tree, size: number};
export type Z = Array<Tree>;
export const t: Tree = {left: null, size: 1};
export function go(n: number, _: ?string): Z { return [t]; }
export default true;
export {y as w} from './b';
export {gone} from './b';
export {spin} from './b';""",
        "b.js": "export const y: 'on' | 7 | null = null;\nexport {spin} from './a';",
        "c.js": "export const x = (",
        "d.js": "",
    }
    asked = ask("signature", path="a.js") + ask("signature", path="b.js") + ask("signature", path="c.js") + ask("signature", path="d.js")
    told = b"""1 signature a.js: 7 exports
  type Z is a.js#Z
  value default: boolean
  value go: (number, null | void | string) => Z
  unknown gone
  cyclic spin
  value t: Tree
  value w: "on" | 7 | null
  alias Tree = {left: null | void | Tree, size: number}
  alias Z = Array<Tree>
1 signature b.js: 2 exports
  cyclic spin
  value y: "on" | 7 | null
1 signature c.js: 0 exports
1 signature d.js: 0 exports
"""
    write_all(root, modules)
    errors = b"1 errors a.js: 2 errors\n  a.js:7:9 missing-export gone\n  a.js:8:9 recursive-definition spin\n"
    expect_script(root, asked + ask("errors", path="a.js"), ERRORS, recheck(4, 4) + told + errors)


def spots(source):
    """The places of a source whose types are told: for each line `SOURCE ## C TYPE ## C TYPE`, from that column on."""
    text, told = [], []
    for number, row in enumerate(source.strip("\n").split("\n"), 1):
        code, *marks = row.split(" ## ")
        text.append(code)
        marks = [it.strip().partition(" ") for it in marks]
        starts = [int(it[0]) for it in marks]
        for column in range(1, len(code) + 1):
            here = [it[2] for it, start in zip(marks, starts) if start <= column]
            told.append((number, column, here[-1] if here and here[-1] != "-" else None))
    return "\n".join(text), told


# Each line of a module, and the types at its columns: from each named one on, `-` where no expression is. They were found by hand: the
# stored run of run_cases asks for the types in these modules and in others, and there the definition's readings tell what is wanted.
TYPED = {
    "what is known narrows": """
export function f(x: ?string, n: number): string { ## 1 -
  if (x != null) { ## 1 - ## 7 null | void | string ## 8 boolean ## 12 null ## 16 -
    return x; ## 1 - ## 12 string ## 13 -
  } ## 1 -
  const m: number = n + 1; ## 1 - ## 21 number ## 25 1 ## 26 -
  return "a" + m; ## 1 - ## 10 "a" ## 13 string ## 16 number ## 17 -
} ## 1 -
""",
    "parts of expressions": """
type P = {q: Array<number>, r: boolean}; ## 1 -
function g(p: P): void { ## 1 -
  p.q[0]; ## 1 - ## 3 P ## 4 Array<number> ## 6 number ## 7 0 ## 8 number ## 9 -
  !p.r; ## 1 - ## 3 boolean ## 4 P ## 5 boolean ## 7 -
  g(p); ## 1 - ## 3 (P) => void ## 4 void ## 5 P ## 6 void ## 7 -
} ## 1 -
""",
    "literals by what is asked of them": """
const s: 'on' | 'off' = 'on'; ## 1 - ## 25 "on" ## 29 -
const o: {a: number} = {a: 7}; ## 1 - ## 24 {a: number} ## 28 7 ## 29 {a: number} ## 30 -
null; ## 1 null ## 5 -
""",
    "ways of a test": """
function f(a: ?string, b: boolean): void { ## 1 -
  a && a.length || ## 1 - ## 3 null | void | string ## 4 null | void | string | number ## 8 string ## 9 number ## 16 string | number | false | boolean
    b && !b; ## 1 string | number | false | boolean ## 5 boolean ## 6 false | boolean ## 10 boolean ## 11 true ## 12 -
  const c = a ?? "none"; ## 1 - ## 13 string | null | void ## 14 string | "none" ## 18 "none" ## 24 -
  (a || null) != null ## 1 - ## 3 string | null ## 4 string | null | void ## 5 string | null ## 9 null ## 13 string | null ## 14 boolean ## 18 null
    ? c : b; ## 1 string | "none" | boolean ## 7 string | "none" ## 8 string | "none" | boolean ## 11 boolean ## 12 -
} ## 1 -
""",
    "a loop that assigns": """
function f(x: ?number, o: {p: ?string}): void { ## 1 -
  let n = x; ## 1 - ## 11 null | void | number ## 12 -
  while (n != null) { ## 1 - ## 10 null | void | number ## 11 boolean ## 15 null ## 19 -
    if (n > 3) { break; } ## 1 - ## 9 number ## 10 boolean ## 13 3 ## 14 -
    n = o.p != null ## 1 - ## 9 {p: null | void | string} ## 10 null | void | string ## 12 boolean ## 16 null
      ? n + 1 : null; ## 1 number | null ## 9 number ## 13 1 ## 14 number | null ## 17 null ## 21 -
    o.p = "a"; ## 1 - ## 5 {p: null | void | string} ## 6 - ## 11 "a" ## 14 -
    o.p; ## 1 - ## 5 {p: null | void | string} ## 6 string ## 8 -
  } ## 1 -
  n; ## 1 - ## 3 null | void | number ## 4 -
} ## 1 -
""",
    "a property tells members apart": """
type S = {k: "a", r: ?number} | {k: "b"}; ## 1 -
const g = (): void => { return; }; ## 1 - ## 11 () => void ## 34 -
function f(s: S): mixed { ## 1 -
  if (s.k === "b" || ## 1 - ## 7 S ## 8 "a" | "b" ## 10 boolean ## 15 "b" ## 18 true | boolean
      s.r == null) { ## 1 true | boolean ## 7 {k: "a", r: null | void | number} ## 8 null | void | number ## 10 boolean ## 14 null ## 18 -
    return s; ## 1 - ## 12 {k: "b"} | {k: "a", r: null | void | number} ## 13 -
  } ## 1 -
  s.r; ## 1 - ## 3 {k: "a", r: null | void | number} ## 4 number ## 6 -
  g(); ## 1 - ## 3 () => void ## 4 void ## 6 -
  s.k; ## 1 - ## 3 {k: "a", r: null | void | number} ## 4 "a" ## 6 -
  return [s.r]; ## 1 - ## 10 Array<null | void | number> ## 11 {k: "a", r: null | void | number} ## 12 null | void | number ## 14 Array<null | void | number> ## 15 -
} ## 1 -
""",
}


def shown_at(line, column, shown):
    """What is printed of a place in `a.js`."""
    place = f"a.js:{line}:{column}"
    return f"1 type-at-pos {place}: {shown}\n" if shown else f"1 no expression {place}\n"


@case
def the_type_at_each_place(root):
    """Of the innermost expression that covers the character, for each one of six modules; nothing before the first line, behind the
    last one, and behind the end of a line."""
    for name, source in TYPED.items():
        text, told = spots(source)
        script, printed = [], [recheck(1)]
        last = len(text.split("\n"))
        outside = [(0, 1), (1, 0), (last + 1, 1), (1, len(text.split("\n")[0]) + 2), (2**64 - 1, 1), (1, 2**64 - 1)]
        for number, column, shown in told + [(*it, None) for it in outside]:
            script.append(ask("type-at-pos", path="a.js", line=number, col=column))
            printed.append(shown_at(number, column, shown).encode())
        write(f"{root}/{name}/a.js", text.encode())
        status, out, err = run(f"{root}/{name}", stdin=None, input=b"".join(script))
        wrong = [f"{it} and not {wanted}" for it, wanted in zip(out.splitlines(True), printed) if it != wanted]
        if wrong or (status, err, len(out.splitlines())) != (CLEAN, b"", len(printed)):
            raise AssertionError(f"{name}: {len(wrong)} are wrong, and it ended with {status}: {'; '.join(wrong[:12])}")


@case
def the_types_by_hand_are_those_of_the_definition(root):
    """The stored run of run_cases wants the same of the same modules, where it was computed by a search through the readings."""
    with open(f"{real_folders.TOP}/crates/run_cases/stdin", encoding="utf-8", newline="\n") as file:
        folders = [it.split("\n") for it in file.read().split("\nfolder\n")]
    for name, source in TYPED.items():
        text, told = spots(source)
        stored = [it for it in folders if f"case the type at each place: {name}" in it]
        if len(stored) != 1 or "\n".join(it[1:] for it in stored[0] if it.startswith("|")) != text:
            raise AssertionError(f"{name}: the stored run has {len(stored)} of this name, or another text")
        wanted = {f"{it[1:]}\n" for it in stored[0] if it.startswith("<")}
        wrong = [it for it in (shown_at(*spot) for spot in told) if it not in wanted]
        if wrong:
            raise AssertionError(f"{name}: the stored run wants something else than {''.join(wrong[:12])}")


@case
def places_count_characters(root):
    asked = [
        (ask("type-at-pos", path="a.js", line=1, col=20), '1 type-at-pos a.js:1:20: "\U0001f600"\n'),
        (ask("type-at-pos", path="a.js", line=1, col=22), '1 type-at-pos a.js:1:22: "\U0001f600"\n'),
        (ask("type-at-pos", path="a.js", line=1, col=23), "1 no expression a.js:1:23\n"),
        (ask("type-at-pos", path="a.js", line=2, col=1), "1 type-at-pos a.js:2:1: 7\n"),
    ]
    expect_asked(root, {"a.js": 'const \u00e9\u4e2d: string = "\U0001f600";\r\n7;'}, asked)


@case
def lines_that_ask_nothing(root):
    lines = (
        {"what": "errors"},
        {"what": "errors", "path": "a.ts"},
        {"what": "errors", "path": 1},
        {"what": "check-contents", "path": "a.js"},
        {"what": "check-contents", "path": "a.js", "text": None},
        {"what": "type-at-pos", "path": "a.js", "line": 1},
        {"what": "type-at-pos", "path": "a.js", "line": 1, "col": -1},
        {"what": "type-at-pos", "path": "a.js", "line": 1.0, "col": 1},
        {"what": "type-at-pos", "path": "a.js", "line": 2**64, "col": 1},
        {"what": "find-module", "path": "a.js"},
        {"what": "importers", "path": "../a.js"},
        {"what": "signature", "path": ""},
        {"what": "types"},
        {"what": None},
        {},
        [],
        "ls",
    )
    for bad in lines:
        expect_script(root, STATUS + line(do="ask", ask=bad), BAD_LINE, recheck(0) + b"1 status: 0 errors\nbad line 2\n")


@case
def the_client_asks(root):
    write_all(root, SHOP)
    types = "1 signature types.js: 1 exports\n  type User is types.js#User\n  alias User = {id: number, name: null | void | string, tags: Array<string>}\n"
    for words, told in ((("types", "types.js"), types), (("who", "users.js"), "1 importers users.js: 1 modules\n  main.js\n"), (("who", "z.js"), "1 unknown path z.js\n")):
        ran = subprocess.run([CLIENT, FLOWD, root, *words], capture_output=True, timeout=300)
        expect((ran.returncode, ran.stdout, ran.stderr), CLEAN, told.encode())


# The words of the command.


@case
def the_most_modules_are_as_the_words_say(root):
    for name in ("a.js", "b.js"):
        write(f"{root}/{name}", b"")
    script = edit("c.js", b"") + delete("a.js") + edit("c.js", b"") + RECHECK
    printed = recheck(2) + b"too many modules 3\n" + done(2, 1, 1)
    for words in ([root, "--modules", "2"], ["--modules=2", root], ["--workers", "007", "--modules=2", "--lanes=16", root]):
        expect(run(*words, stdin=None, input=script), CLEAN, printed)
    expect(run("--modules", "1", root), LIMIT, b"limit files 2\n")
    for number in range(4096):
        write(f"{root}/d{number % 61}/m{number}.js", b"")
    expect(run("--modules=4096", root), LIMIT, b"limit files 4098\n")
    os.remove(f"{root}/a.js")
    os.remove(f"{root}/b.js")
    expect(run("--modules=4096", root), CLEAN, recheck(4096))


@case
def words_that_are_not_of_the_command(root):
    write(f"{root}/a.js", GOOD)
    wrong = (
        [],
        ["--workers", "65", root],
        [root, "--workers", "2", "--workers=2"],
        [root, root],
        [root, "--workers", "0"],
        [root, "--workers", "1" * 21],
        [root, "--workers"],
        [root, "--workers", ""],
        [root, "--workers=+1"],
        [root, "--workers= 1"],
        [root, "--lanes", "17"],
        [root, "--lanes", "0"],
        [root, "--modules", "4097"],
        [root, "--modules", "0"],
        [root, "--"],
        [root, "--help"],
        [root, "-h"],
        [root, "--verbose"],
        ["-", root],
        ["", root],
        ["--gen", "3"],
        ["--seed", "3"],
        ["--gen", "0", "--seed", "1"],
        ["--gen", "1025", "--seed", "1"],
        ["--gen", "3", "--seed", "1", "--modules", "2"],
        ["--gen", "3", "--seed", str(2**64)],
        ["--gen", "3", "--seed", "1", root],
        ["--gen", "3", "--gen", "3", "--seed", "1"],
    )
    for words in wrong:
        expect(run(*words, stdin=None, input=b"no line"), BAD_WORDS, USAGE)


@case
def any_number_of_workers_prints_the_same(root):
    write_all(root, SHOP)
    for number in range(150):
        write(f"{root}/m{number}.js", f"import {{v{number - 1}}} from './m{number - 1}';\nexport const v{number}: {'string' if number % 7 else 'number'} = {number};".encode())
    script = STATUS + edit("m3.js", GOOD) + RECHECK + STATUS + edit("types.js", b"") + stop_at(4) + RECHECK + STATUS
    first = run("--workers=1", root, stdin=None, input=script)
    if first[0] != ERRORS or first[1].count(b"\nrecheck ") != 3:
        raise AssertionError(f"it is {first}")
    for workers in (2, 3, 4, 64):
        expect(run(f"--workers={workers}", root, stdin=None, input=script), ERRORS, first[1])


# Made-up folders.


def generated(rows, modules):
    told = b"".join(b"recheck %d: %d parsed, %d checked, 0 errors\n" % (version, *it) for version, it in enumerate(rows, 1))
    return told + b"generated %d modules\n" % modules


@case
def one_module_is_made_up(root):
    """Neither a folder nor a script is read."""
    expect(run("--gen", "1", "--seed", "0", stdin=None, input=b"no line\n"), CLEAN, generated([(1, 1)] * 11, 1))
    expect(run("--modules=1", "--seed=0", "--gen=1", "--workers=1"), CLEAN, generated([(1, 1)] * 11, 1))


def drawn(modules, seed):
    """Which module each one imports, and which is edited in each round."""
    state, draws = seed, []
    for bound in [*range(1, modules), *[modules] * 10]:
        state = (state * 6364136223846793005 + 1442695040888963407) % 2**64
        draws.append((state >> 33) % bound)
    return [None, *draws[: modules - 1]], draws[modules - 1 :]


def counts(modules, seed):
    """What is parsed and checked at the load and in each round. In a round of a type the edited module is checked, and those that reach
    it along types: each names the type of the one that it imports. In another round a type may go back to what it was."""
    imports, edits = drawn(modules, seed)
    wide, rows = set(), [(modules, modules)]
    for number, edited in enumerate(edits, 1):
        now = number in (3, 6, 9)
        moved = now != (edited in wide)
        (wide.add if now else wide.discard)(edited)
        reached = {edited}
        for it in range(modules):
            if moved and it > edited and imports[it] in reached:
                reached.add(it)
        rows.append((1, len(reached)))
    return rows


@case
def many_modules_are_made_up(root):
    for modules, seed in ((2, 0), (300, 1), (1024, 2**64 - 1)):
        told = generated(counts(modules, seed), modules)
        for workers in (1, 4, 64):
            expect(run("--gen", str(modules), "--seed", str(seed), f"--workers={workers}"), CLEAN, told)
    expect(run("--gen=4096", "--seed=7", "--modules=4096"), CLEAN, generated(counts(4096, 7), 4096))


# All programs.


def errors_of(path, errors):
    """Those that stand in a module, of the lines of a program's errors."""
    return [b"  %s\n" % it for it in errors if it.startswith(path + b":")]


def expect_same(root, modules, errors):
    """Each module has its errors, and so has its own text where it is given as one that is not saved."""
    for path, text in modules:
        write(f"{root}/{path.decode()}", text)
    script, told = [], [recheck(len(modules), len(errors))]
    for path, text in modules:
        try:
            contents = text.decode()
        except UnicodeDecodeError:
            continue
        mine = errors_of(path, errors)
        for what, parts in (("errors", {}), ("check-contents", {"text": contents})):
            script.append(ask(what, path=path.decode(), **parts))
            told.append(b"1 %s %s: %d errors\n" % (what.encode(), path, len(mine)) + b"".join(mine))
    expect(run(root, stdin=None, input=b"".join(script)), ERRORS if errors else CLEAN, b"".join(told))


@case
def the_errors_of_each_module_of_all_programs(root):
    wrong = []
    for number, (name, modules, errors) in enumerate(programs.written()):
        try:
            expect_same(f"{root}/{number}", modules, errors)
        except AssertionError as why:
            wrong.append(f"{name}: {str(why)[:1500]}")
    if wrong:
        raise AssertionError(f"{len(wrong)} are wrong: " + "\n".join(wrong[:5]))


if __name__ == "__main__":
    real_folders.go_straight()
    sys.exit(real_folders.main())
