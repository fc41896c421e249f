#!/usr/bin/env python3
"""Runs ./flowd on sources that were made to hurt it: as long, as deep and as wide as the limit of a source lets them be.

    tests/hostile.py [--more] [WORD]       (only the cases whose name has this word)

The sources of a case are checked as the folder's, by one worker. With --more they are checked by four, and again where edits bring
them in; each is checked as a text that isn't saved, too, and types are asked for in it. Each run must print what the rules say, end by itself, and stay within a bound of time and of memory
that goes by the bytes that it reads and prints. The last line is 'N passed, M failed'.
"""

import json
import os
import re
import resource
import subprocess
import sys

sys.path.insert(0, os.path.dirname(os.path.abspath(__file__)))
import real_folders
from real_folders import CLEAN, ERRORS, FLOWD, write

MOST = 1_048_576  # bytes of a source
DEEPEST = 200  # brackets in one another
MORE = "--more" in sys.argv
sys.argv = [word for word in sys.argv if word != "--more"]
THREADS = 4 if MORE else 1  # which work at once, each with a stack and an arena of its own
STACK, ARENA = 1 << 30, 128 << 20
SECONDS = 60  # of a processor, for each time that the sources are checked: five times what it takes on a slow one
MODULES, MANY, FEW_SECONDS = 1024, 4000, 20  # that the program takes where no word says more; that a case has; and what such a case takes at the most
START, EACH = 32 << 20, 300  # bytes of memory at the most: those at the start, and those for each byte
CASES = real_folders.CASES = []


def case(test):
    CASES.append(test)
    return test


def command(**parts):
    return json.dumps(parts, ensure_ascii=False).encode() + b"\n"


STATUS, RECHECK = command(do="ask", ask={"what": "status"}), command(do="recheck")


def limits(seconds):
    resource.setrlimit(resource.RLIMIT_CPU, (seconds,) * 2)
    resource.setrlimit(resource.RLIMIT_AS, (THREADS * (STACK + ARENA) + START + EACH * 8 * MOST,) * 2)
    resource.setrlimit(resource.RLIMIT_CORE, (0, 0))


def run(root, folder, script, seconds, modules):
    """Runs ./flowd over so many modules with a script: its status, what it wrote, and the peak of its memory in bytes."""
    with open(f"{root}/script", "wb") as file:
        file.write(script)
    with open(f"{root}/script", "rb") as lines, open(f"{root}/out", "wb") as out:
        words = [FLOWD, f"--workers={THREADS}", *([f"--modules={modules}"] if modules > MODULES else []), f"{root}/{folder}"]
        child = subprocess.Popen(words, stdin=lines, stdout=out, stderr=out, preexec_fn=lambda: limits(seconds))
        _, status, usage = os.wait4(child.pid, 0)
        child.returncode = os.waitstatus_to_exitcode(status)
    with open(f"{root}/out", "rb") as out:
        return child.returncode, out.read(), usage.ru_maxrss << 10


def brief(text):
    return text if len(text) < 400 else text[:200] + b" .. " + text[-200:]


def place_of(source, at):
    """The line and the column of a byte of a source."""
    before = source.encode()[:at]
    return before.count(b"\n") + 1, len(before[before.rfind(b"\n") + 1 :].decode(errors="ignore")) + 1


class Told:
    """A script, and what is told of it: bytes that are known, and types that are not, each on a line of its own."""

    def __init__(self, text=b""):
        self.script, self.parts, self.times = b"", [text], 1

    def put(self, script, *parts, times=0):
        self.script += script
        self.parts += parts
        self.times += times

    def check_contents(self, version, name, source, errors):
        """A text that isn't saved has the errors of its module."""
        own = [error for error in errors if error.startswith(f"{name}.js:")]
        asked = command(do="ask", ask={"what": "check-contents", "path": f"{name}.js", "text": source})
        rows = "".join(f"  {error}\n" for error in own)
        self.put(asked, f"{version} check-contents {name}.js: {len(own)} errors\n{rows}".encode(), times=1)

    def type_at(self, version, name, place, shown=None):
        """A type at a place: this one, or any one or none."""
        asked = command(do="ask", ask={"what": "type-at-pos", "path": f"{name}.js", "line": place[0], "col": place[1]})
        said = f"{name}.js:{place[0]}:{place[1]}"
        if shown is None:
            any_type = f"(?:{version} no expression {re.escape(said)}|{version} type-at-pos {re.escape(said)}: [^\n]+)\n"
            self.put(asked, re.compile(any_type.encode()), times=1)
        else:
            self.put(asked, f"{version} type-at-pos {said}: {shown}\n".encode(), times=1)

    def is_told(self, text):
        at = 0
        for part in self.parts:
            if isinstance(part, bytes):
                end = at + len(part) if text.startswith(part, at) else None
            else:
                found = part.match(text, at)
                end = found and found.end()
            if end is None:
                return False
            at = end
        return at == len(text)

    def expect(self, root, folder, sources, status, seconds):
        ended, text, memory = run(root, folder, self.script, self.times * seconds, len(sources))
        if ended != status or not self.is_told(text):
            known = b"".join(part if isinstance(part, bytes) else b"(a type)\n" for part in self.parts)
            raise AssertionError(f"over {folder} it ended with {ended} and printed {brief(text)}, and not with {status} and {brief(known)}")
        bound = START + EACH * (sum(map(len, sources.values())) + len(self.script) + len(text))
        if memory > bound:
            raise AssertionError(f"over {folder} it took {memory} bytes of memory, which is more than {bound}")


def status_of(version, errors):
    rows = "".join(f"  {error}\n" for error in errors)
    return f"{version} status: {len(errors)} errors\n{rows}".encode()


def done(version, modules, errors):
    return b"recheck %d: %d parsed, %d checked, %d errors\n" % (version, modules, modules, errors)


def of_the_folder(root, errors, sources, types, seconds):
    """The folder has the sources; the errors of each by its text, and a type in the middle of each."""
    for name, source in sources.items():
        write(f"{root}/d/{name}.js", source.encode())
    told = Told(done(1, len(sources), len(errors)))
    told.put(STATUS, status_of(1, errors))
    for name, source in sources.items() if MORE else ():
        told.check_contents(1, name, source, errors)
        told.type_at(1, name, place_of(source, len(source.encode()) // 2))
    for name, row, column, shown in types if MORE else ():
        told.type_at(1, name, (row, column), shown)
    told.expect(root, "d", sources, ERRORS if errors else CLEAN, seconds)


def of_edits(root, errors, sources, seconds):
    """The folder is empty, and edits bring the sources in; a type at the end of each."""
    os.makedirs(f"{root}/e", exist_ok=True)
    told = Told(done(1, 0, 0))
    told.put(b"".join(command(do="edit", path=f"{name}.js", text=source) for name, source in sources.items()) + RECHECK, done(2, len(sources), len(errors)))
    told.put(STATUS, status_of(2, errors))
    for name, source in sources.items():
        told.type_at(2, name, place_of(source, len(source.encode()) - 1))
    told.expect(root, "e", sources, ERRORS if errors else CLEAN, seconds)


def expect(root, errors, types=(), most=MOST, seconds=SECONDS, **sources):
    """The errors of these modules, each as PATH:LINE:COLUMN CODE DETAILS, and types in them, each at a module, a line and a column."""
    for name, source in sources.items():
        if len(source.encode()) > most:
            raise AssertionError(f"{name}.js has {len(source.encode())} bytes, which is past the limit")
    of_the_folder(root, errors, sources, types, seconds)
    if MORE:
        of_edits(root, errors, sources, seconds)


def filled(part, before="", after="", size=MOST):
    """A source of this size at the most, with the part as often as it goes in; and how often that is."""
    times = (size - len(before) - len(after)) // len(part)
    return before + part * times + after, times


def cut(shown):
    """A type as errors print it."""
    return shown if len(shown) <= 80 else shown[:77] + "..."


# Brackets and marks: past the deepest nesting it is no module, at the mark that passes it.


@case
def parentheses(root):
    expect(root, [f"a.js:1:{DEEPEST + 1} parse"], a="(" * MOST)


@case
def the_deepest_parentheses(root):
    text = "(" * DEEPEST + "a" + ")" * DEEPEST
    errors = [f"a.js:1:{DEEPEST + 1} cannot-resolve-name a", f"b.js:1:{DEEPEST + 1} parse"]
    expect(root, errors, [("a", 1, DEEPEST + 1, "any")], a=f"{text};", b=f"({text});")


@case
def braces(root):
    """No item begins with a brace; in a function each one begins a block."""
    head = "function f() "
    expect(root, ["a.js:1:1 parse", f"b.js:1:{len(head) + DEEPEST + 1} parse"], a="{" * MOST, b=filled("{", head)[0])


@case
def square_brackets(root):
    expect(root, [f"a.js:1:{DEEPEST + 1} parse"], a="[" * MOST)


@case
def brackets_in_types(root):
    head = "type T = "
    parts = {"a": "(", "b": "[", "c": "{a:", "d": "Array<", "e": "? ", "f": "()=>"}
    marks = {name: part.index(part.strip("Array")[0]) for name, part in parts.items()}
    errors = [f"{name}.js:1:{len(head) + DEEPEST * len(part) + marks[name] + 1} parse" for name, part in parts.items()]
    expect(root, errors, **{name: filled(part, head)[0] for name, part in parts.items()})


@case
def conditionals(root):
    """Each `?` waits for the end of its statement."""
    expect(root, [f"a.js:1:{4 * DEEPEST + 2} parse"], a=filled("1?1:", "", "1;")[0])


# Chains, which no nesting limits.


@case
def properties_of_properties(root):
    text, times = filled(".a", "a", ";")
    errors = ["a.js:1:1 cannot-resolve-name a", f"b.js:1:{2 * times + 2} parse"]
    expect(root, errors, [("a", 1, 2 * times + 1, "any")], a=text, b=text[:-1])


@case
def calls_and_elements(root):
    expect(root, [], a=filled("()[0]", "Math", ";")[0])


@case
def marks_before_a_value(root):
    head = "const a: boolean = "
    expect(root, [], [("a", 1, len(head) + 1, "boolean")], a=filled("!", head, "1;")[0])


@case
def sums(root):
    text, times = filled("+1", "const a: number = 1", ";")
    expect(root, [], [("a", 1, len(text) - 2, "number"), ("a", 1, len(text) - 1, "1")], a=text)


@case
def tests_in_a_row(root):
    """The right side of each is read from the facts that its left side leaves."""
    head = "function f(a: ?number) {return a"
    expect(root, [], a=filled("&&a", head, ";}")[0], b=filled("||a", head, ";}")[0], c=filled("??a", head, ";}")[0])


@case
def arms_of_an_if(root):
    expect(root, [], a=filled("else if(a)b;", "function f(a: mixed, b: mixed) {if(a)b;", "}")[0])


@case
def arms_that_set_different_variables(root):
    """Behind the `if` each may have been set or not, its types in the order of the arms; one more is set in no arm."""
    count = 15_000
    lets = "".join(f"let v{i}:?number=null;" for i in range(count + 1))
    head = f"function f(b:boolean){{{lets}{'else '.join(f'if(b){{v{i}=1;}}' for i in range(count))}\n"
    uses = "".join(f"const x{i}:null=v{i};\n" for i in (0, count - 1, count))
    types = {0: "number | null", count - 1: "null | number"}
    errors = [f"a.js:{line}:{len(f'const x{i}:null=') + 1} incompatible-type {types[i]} null" for line, i in enumerate(types, 2)]
    expect(root, errors, a=f"{head}{uses}}}")


@case
def members_of_a_union(root):
    expect(root, [], a=filled("|1", "const a: 1", "=1;")[0])


@case
def one_comment(root):
    """Where it doesn't end, its marks are tokens; no item begins with one."""
    expect(root, ["b.js:1:1 parse"], a=filled("*", "/*", "*/")[0], b=filled("*", "/*")[0])


@case
def comments_that_do_not_end(root):
    """The end of none is looked for again."""
    expect(root, ["a.js:1:1 parse", "b.js:1:1 parse"], a=filled("/*a")[0], b=filled("/*\u00e9", size=MOST * 3 // 4)[0])


# Functions in one another, and many branches.


@case
def functions_in_one_another(root):
    depth = DEEPEST - 2
    expect(root, [], a=filled("a=1;", "let a: number = 0;" + "function f() {" * depth, "}" * depth)[0])


@case
def branches_that_assign(root):
    """Many variables, each of which is assigned in a branch of its own."""
    count = 15_000
    lets = "".join(f"let a{i}:?number=1;" for i in range(count))
    expect(root, [], a=f"function f(c: boolean) {{{lets}{''.join(f'if(c)a{i}=null;' for i in range(count))}}}")


# Types that are deep, though no bracket stands in another.


@case
def arrays_of_arrays(root):
    text, depth = filled("[]", "const x: number", "='a';")
    expect(root, [f"a.js:1:{len(text) - 3} incompatible-type \"a\" {cut('Array<' * depth)}"], a=text)


@case
def values_of_deep_types(root):
    """Two values of types that are deep in the same way, one assigned to the other."""
    depth = 10_000
    lines = "".join(f"let x{i + 1}=[x{i}];let y{i + 1}=[y{i}];\n" for i in range(depth))
    shown = "Array<" * depth + "number" + ">" * depth
    place = len(f"x{depth}=") + 1
    error = f'a.js:{depth + 3}:{place} incompatible-type "a" {cut(shown)}'
    expect(root, [error], [("a", depth + 2, place, shown)], a=f"let x0=1;let y0=2;\n{lines}x{depth}=y{depth};\nx{depth}='a';\n")


# Types that are large, though their source is short.


@case
def types_that_double(root):
    """Thirty lines, each of which has the type of the one before twice, and one that prints the last."""
    lines = "".join(f"const x{i} = {{a: x{i - 1}, b: x{i - 1}}};\n" for i in range(1, 31))
    line = "const y: number = "
    error = f"a.js:32:{len(line) + 1} incompatible-type {'{a: ' * 19}{{... number"
    expect(root, [error], a=f"const x0 = 1;\n{lines}{line}x30;\n")


@case
def aliases_in_a_row(root):
    """Names that lead to one another: to a type in the end, or round."""
    count = 40_000
    row = "".join(f"type T{i}=T{i + 1};\n" for i in range(count))
    line = "const x: T0 = "
    errors = [f'a.js:{count + 2}:{len(line) + 1} incompatible-type "a" T0']
    errors += [f"b.js:{i + 1}:6 recursive-alias T{i}" for i in range(count + 1)]
    expect(root, errors, a=f"{row}type T{count}=number;\n{line}'a';", b=f"{row}type T{count}=T0;")


# Long names and texts, and many of one kind.


@case
def one_name(root):
    name = "a" * (MOST - 1)
    expect(root, [f"a.js:1:1 cannot-resolve-name {name}"], [("a", 1, MOST - 1, "any")], a=f"{name};")


@case
def one_string(root):
    line = "const a: number = "
    text, times = filled("a", f'{line}"', '";')
    string = '"' + "a" * times + '"'
    errors = [f"a.js:1:{len(line) + 1} incompatible-type {cut(string)} number", "b.js:1:1 bad-token"]
    expect(root, errors, [("a", 1, len(line) + 1, string)], a=text, b=string[:-1])


@case
def a_source_past_the_limit(root):
    expect(root, ["b.js:1:1 source-too-long"], most=MOST + 1, a=" " * MOST, b=" " * (MOST + 1))


@case
def an_object_of_many_properties(root):
    """It is below its type but for its last property; and one that is asked for is missing."""
    props = ",".join(f"p{i}:1" for i in range(100_000))
    line = f"const x:T={{{props[:-1]}2}};x.q;"
    place = len(line) - len("2};x.q;") + 1
    errors = [f"b.js:2:{place} incompatible-type 2 1", f"b.js:2:{len(line) - 1} prop-missing q"]
    expect(root, errors, a=f"export type T={{{props}}};", b=f"import type {{T}} from './a';\n{line}")


@case
def a_key_that_is_repeated(root):
    head, count = "const x={", 100_000
    errors = [f"a.js:1:{len(head) + 1 + 4 * i} name-already-bound a" for i in range(1, count)]
    expect(root, errors, a=head + "a:1," * count + "};")


@case
def many_functions(root):
    count = 20_000
    lines = (f"function f{i}(a:number):number{{return f{(i + 1) % count}(a);}}" for i in range(count))
    expect(root, [], a="".join(lines))


@case
def many_exports(root):
    count = 10_000
    exports = "".join(f"export function f{i}(a: ?string):number{{return {i};}}\n" for i in range(count))
    names = ",".join(f"f{i}" for i in range(count))
    uses = "".join(f"f{i}({i});\n" for i in range(count))
    errors = [f"b.js:{i + 2}:{len(f'f{i}(') + 1} incompatible-type {i} null | void | string" for i in range(count)]
    expect(root, errors, a=exports, b=f"import {{{names}}} from './a';\n{uses}")


@case
def many_errors(root):
    count = 100_000
    expect(root, [f"a.js:{i + 1}:1 cannot-resolve-name a" for i in range(count)], a="a;\n" * count)


@case
def many_errors_on_a_line(root):
    count = 100_000
    expect(root, [f"a.js:1:{2 * i + 1} cannot-resolve-name a" for i in range(count)], a="a;" * count)


@case
def many_types_in_errors(root):
    count = 80_000
    expect(root, [f"a.js:{i + 1}:1 incompatible-type 1 string" for i in range(count)], a="1 as string;\n" * count)


# Many modules: each that is checked sees one table of what all of them may read.


@case
def one_module_that_all_import(root):
    """It has as many exports as there are others, and each of these imports one."""
    exports = "".join(f"export const e{i}: ?T{i} = null;\nexport type T{i} = {{a: ?T{i // 2}}};\n" for i in range(MANY))
    others = {f"m{i:04}": f"import {{e{i}}} from './a';\nimport type {{T{i}}} from './a';\nconst x: T{i} = e{i};\n" for i in range(MANY)}
    place = [len(f"const x: T{i} = ") + 1 for i in range(MANY)]
    errors = [f"m{i:04}.js:3:{place[i]} incompatible-type {kind} T{i}" for i in range(MANY) for kind in ("null | void | T" + str(i),)]
    expect(root, errors, seconds=FEW_SECONDS, a=exports, **others)


def linked(is_ring):
    """Modules each with a type that leads to that of the one before, and the errors of each."""
    sources, errors = {}, []
    for i in range(MANY):
        before = (i - 1) % MANY
        has_one = i > 0 or is_ring
        other, prop, value = (f"import type {{T{before}}} from './m{before:04}';\n", f", b: ?T{before}", ", b: null") if has_one else ("", "", "")
        line = f"const x: T{i} = {{a: ''{value}}};\n"
        sources[f"m{i:04}"] = f"{other}export type T{i} = {{a: number{prop}}};\n{line}"
        errors.append(f"m{i:04}.js:{3 if has_one else 2}:{line.index(chr(39)) + 1} incompatible-type \"\" number")
    return sources, errors


@case
def a_chain_of_modules(root):
    sources, errors = linked(is_ring=False)
    expect(root, errors, seconds=FEW_SECONDS, **sources)


@case
def a_ring_of_modules(root):
    sources, errors = linked(is_ring=True)
    expect(root, errors, seconds=FEW_SECONDS, **sources)


@case
def a_star_of_modules(root):
    """One imports a name of each other."""
    imports = "".join(f"import type {{T{i}}} from './m{i:04}';\n" for i in range(MANY))
    lines = "".join(f"const x{i}: T{i} = {{a: ''}};\n" for i in range(MANY))
    errors = [f"a.js:{MANY + i + 1}:{len(f'const x{i}: T{i} = {{a: ') + 1} incompatible-type \"\" number" for i in range(MANY)]
    expect(root, errors, seconds=FEW_SECONDS, a=imports + lines, **{f"m{i:04}": f"export type T{i} = {{a: number}};\n" for i in range(MANY)})


if __name__ == "__main__":
    sys.exit(real_folders.main())
