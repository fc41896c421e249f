#!/usr/bin/env python3
"""Runs ./flowd on made-up scripts over made-up folders, and compares what it says behind each recheck with a fresh run.

    tests/random_edits.py [--scripts N] [--seed S] [--only K]

A script edits, deletes and touches modules, which import one another, while files of the folder come, change and go; and
rechecks. What is printed behind a recheck must be what a fresh run prints of a folder with the same sources; behind one that is
refused or cancelled it must be what was printed before. The scripts are made from the seed: N of them, or the Kth alone. Of one that fails
the shortest form that was found is shown. The last line is 'N passed, M failed'.
"""

import argparse
import collections
import json
import os
import posixpath
import random
import re
import select
import subprocess
import sys
import tempfile
import time
from concurrent.futures import ThreadPoolExecutor

sys.path.insert(0, os.path.dirname(os.path.abspath(__file__)))
from real_folders import CLEAN, ERRORS, FLOWD, MOST_BYTES, go_straight, run
from scripts import END, RECHECK, STATUS, delete, line, touch

AT_ONCE = 2  # scripts
SECONDS = 60  # of waiting for a line, at the most
TRIES = 400  # of making a script shorter, at the most
PATHS = ("a.js", "b.js", "c.js", "d.js", "d/index.js", "d/a.js", "d/b.js", "d/e/a.js", "e/index.js", "e/b.js", "index.js", ".js", "\u00e9 1.js")
TOO_LARGE = object()  # a file that can't be read


# Types of made-up modules: a base type's name, or a tuple that begins with a word.

BASES = ("number", "string", "boolean", "null", "void", "mixed", "any", "empty")
LITERALS = ("0", "1", "42", '""', '"a"', '"b"', "true", "false")
KEYS = ("a", "b", "kind", "next", "length")


def shown(it):
    """The text of a type."""
    if isinstance(it, str):
        return it
    word, *parts = it
    if word == "maybe":
        return f"?{enclosed(parts[0])}"
    if word == "or":
        return " | ".join(map(enclosed, parts[0]))
    if word == "tuple":
        return f"[{', '.join(map(shown, parts[0]))}]"
    if word == "array":
        return f"{enclosed(parts[0])}[]"
    if word == "read":
        return f"$ReadOnlyArray<{shown(parts[0])}>"
    if word == "function":
        return f"({', '.join(map(shown, parts[0]))}) => {enclosed(parts[1])}"
    props, more = parts
    return "{" + ", ".join([f"{sign}{key}{mark}: {shown(of)}" for sign, key, mark, of in props] + ["..."] * more) + "}"


def enclosed(it):
    return f"({shown(it)})" if it[0] in ("or", "function", "maybe") and not isinstance(it, str) else shown(it)


# The calls that make items, and how they name them.
MAKES = ("alias",) * 4 + ("constant",) * 4 + ("function",) * 4 + ("plain", "default", "export", "handed_on", "handed_on_type")
LETTERS = {"alias": "T", "handed_on_type": "T", "function": "f"}

# An item of a module: the call that made it and its name, its text, and what it binds and exports; types by their names.
Item = collections.namedtuple("Item", "make name text types values type_exports value_exports")


class Maker:
    """Makes modules and scripts over them."""

    def __init__(self, seed):
        self.random = random.Random(seed)
        self.modules = {}  # the items of the last text at each path
        self.path = None  # the module that is made, and what its items bind
        self.types, self.values = {}, {}

    def chance(self, part):
        return self.random.random() < part

    def one(self, choices):
        return self.random.choice(list(choices))

    def some(self, most, make):
        return [make() for _ in range(self.random.randint(0, most))]

    # Types.

    def type(self, deep=2):
        if deep == 0 or self.chance(0.3):
            return self.one([*BASES[:4], *BASES[:3], *BASES, *LITERALS, *list(self.types) * 3])
        below = lambda: self.type(deep - 1)
        word = self.one(("maybe", "or", "tuple", "array", "read", "function", "object", "object", "object"))
        if word in ("maybe", "array", "read"):
            return word, below()
        if word == "or":
            return word, [below(), *self.some(2, below), below()]
        if word == "tuple":
            return word, self.some(3, below)
        if word == "function":
            return word, self.some(2, below), below()
        props = {key: below() for key in self.some(3, lambda: self.one(KEYS))}
        return word, [(self.one(("", "", "", "+", "-")), key, self.one(("", "", "?")), of) for key, of in props.items()], self.chance(0.15)

    def value(self, of, deep=3):
        """An expression that mostly has the type."""
        if deep == 0 or self.chance(0.06):
            return self.expression(0)
        if self.chance(0.2):
            fits = [name for name, it in self.values.items() if it == of]
            if fits:
                return self.one(fits)
        if isinstance(of, str):
            return self.value_of_word(of, deep)
        word, *parts = of
        below = lambda it: self.value(it, deep - 1)
        if word == "maybe":
            return self.one(("null", "undefined", below(parts[0]), below(parts[0])))
        if word == "or":
            return below(self.one(parts[0]))
        if word == "tuple":
            return f"[{', '.join(map(below, parts[0]))}]"
        if word in ("array", "read"):
            return f"[{', '.join(self.some(2, lambda: below(parts[0])))}]"
        if word == "function":
            names = [f"p{number}: {shown(it)}" for number, it in enumerate(parts[0])]
            return f"(({', '.join(names)}) => {self.arrow_body(parts[1], deep)})"
        return "{" + ", ".join(f"{key}: {below(it)}" for _, key, mark, it in parts[0] if not mark or self.chance(0.5)) + "}"

    def arrow_body(self, of, deep):
        text = self.value(of, deep - 1)
        return f"({text})" if text.startswith("{") else text

    def value_of_word(self, word, deep):
        if word in self.types and self.types[word] is not None:
            return self.value(self.types[word], deep - 1)
        if word in LITERALS:
            return word
        choices = {"number": ("1", "2.5", "1 + 2", "-3", '"a".length'), "string": ('"a"', "'\u00e9\U0001f600'", '"a" + 1'), "null": ("null",)}
        choices |= {"boolean": ("true", "false", "!1", "1 < 2"), "void": ("undefined",), "any": ("JSON", "1"), "mixed": ("1", '"m"', "null")}
        return self.one(choices.get(word, ("JSON",)))

    # Expressions and statements.

    def name(self):
        return self.one([*self.values, *self.values, *self.values, "undefined", "console", "nowhere", *list(self.types)[:1]])

    def expression(self, deep=2):
        if deep == 0:
            return self.one([self.name(), self.name(), *LITERALS, "null", f"{self.name()}.{self.one(KEYS)}"])
        below = lambda: self.expression(deep - 1)
        forms = (
            lambda: f"({below()})",
            lambda: f"{self.name()}.{self.one(KEYS)}.{self.one(KEYS)}",
            lambda: f"{self.name()}[{below()}]",
            lambda: f"{self.name()}({', '.join(self.some(2, below))})",
            lambda: f"{self.name()}({', '.join(self.some(2, below))})",
            lambda: f"{self.test()} ? {below()} : {below()}",
            lambda: f"({below()}) {self.one('+-*/%<>')} ({below()})",
            lambda: f"({below()}) {self.one(('&&', '||', '??', '===', '!=', '<='))} ({below()})",
            lambda: f"{self.one(('!', '-', 'typeof '))}{self.name()}",
            lambda: f"({below()}) as {enclosed(self.type(1))}",
            lambda: f"[{', '.join(self.some(2, below))}]",
            lambda: "({" + ", ".join(f"{self.one(KEYS)}: {below()}" for _ in range(2)) + "})",
            lambda: f"((p: {shown(self.type(1))}) => {self.arrow_body('number', 2)})",
            lambda: self.value(self.type()),
        )
        return self.one(forms)()

    def test(self):
        name, key = self.name(), self.one(KEYS)
        return self.one((name, f"!{name}", f"{name} != null", f"{name} === null", f'typeof {name} === "{self.one(BASES[:3])}"', f'{name}.{key} === "a"', f"{name}.{key}"))

    def body(self, result, deep=2):
        """The statements of a function with this type of its result."""
        lines = self.some(3, lambda: self.statement(result, deep))
        return "{ " + " ".join([*lines, f"return {self.value(result)};" if self.chance(0.85) else ""]) + " }"

    def statement(self, result, deep):
        below = lambda: " ".join(self.some(2, lambda: self.statement(result, deep - 1)))
        forms = [
            lambda: f"{self.expression()};",
            lambda: f"const l{self.random.randint(0, 2)}: {shown(of)} = {self.value(of)};",
            lambda: f"let l{self.random.randint(0, 2)} = {self.expression()};",
            lambda: f"{self.name()} = {self.expression()};",
            lambda: f"{self.name()}.{self.one(KEYS)} = {self.expression()};",
            lambda: f"if ({self.test()}) {{ return {self.value(result)}; }}",
        ]
        if deep:
            forms.append(lambda: f"if ({self.test()}) {{ {below()} }} else {{ {below()} }}")
            forms.append(lambda: f"while ({self.test()}) {{ {below()} {self.one(('break;', 'continue;', ''))} }}")
            forms.append(lambda: f"{{ {below()} }}")
            forms.append(lambda: f"throw {self.expression()};" if self.chance(0.2) else f"{self.expression()};")
        of = self.type(1)
        return self.one(forms)()

    # Items. Each call makes one of this name.

    def alias(self, name):
        of, out = self.type(3), self.chance(0.8)
        return Item("alias", name, f"{'export ' * out}type {name} = {shown(of)};", {name: of}, {}, {name: of} if out else {}, {})

    def constant(self, name):
        of, out, told = self.type(), self.chance(0.8), self.chance(0.9)
        text = f"{'export ' * out}{self.one(('const', 'const', 'let'))} {name}{f': {shown(of)}' * told} = {self.value(of)};"
        return Item("constant", name, text, {}, {name: of}, {}, {name: of} if out else {})

    def function(self, name):
        params, result, out = self.some(2, self.type), self.type(), self.chance(0.8)
        names = [f"p{number}" for number in range(len(params))]
        before, self.values = self.values, {**self.values, **dict(zip(names, params))}
        told = ", ".join(f"{name}{self.one(('', '', '?'))}: {shown(it)}" for name, it in zip(names, params))
        text = f"{'export ' * out}function {name}({told}){f': {shown(result)}' * self.chance(0.95)} {self.body(result)}"
        self.values = before
        return Item("function", name, text, {}, {name: ("function", params, result)}, {}, {name: ("function", params, result)} if out else {})

    def plain(self, name):
        """A statement that exports nothing."""
        text = self.one((f"{self.expression()};", f"{self.name()} = {self.expression()};"))
        return Item("plain", name, text if text[0] not in "{f" else f"({text[:-1]});", {}, {}, {}, {})

    def default(self, name):
        of = self.type()
        forms = (f"({self.value(of)}) as {enclosed(of)};", f"function (p0: {shown(of)}): {shown(of)} {self.body(of)}", f"{self.name()};")
        return Item("default", name, f"export default {self.one(forms)}", {}, {}, {}, {"default": of})

    def export(self, name):
        """An export of something that is bound here."""
        if self.types and self.chance(0.4):
            own = self.one(self.types)
            return Item("export", name, f"export type {{{own}}};", {}, {}, {own: self.types[own]}, {})
        own, told = self.name(), self.one((name, "default"))
        return Item("export", name, f"export {{{own} as {told}}};", {}, {}, {}, {told: self.values.get(own, "any")})

    def told_by(self, path, kind):
        """The names of this kind that a module exports, with their types."""
        return {name: of for item in self.modules.get(path, ()) for name, of in getattr(item, f"{kind}_exports").items()}

    def taken(self, kind):
        """A specifier of a module, and a name that it exports, mostly, with its type."""
        telling = [path for path in self.modules if self.told_by(path, kind)]
        other = self.one(telling) if telling and self.chance(0.9) else self.one(PATHS)
        told = self.told_by(other, kind)
        name = self.one(told) if told and self.chance(0.93) else self.one(("a0", "T0", "f1", "default"))
        return self.specifier(other), name, told.get(name, "any")

    def imported(self, name):
        spec, told, of = self.taken("value")
        if told == "default":
            return Item("imported", name, f"import {name} from '{spec}';", {}, {name: of}, {}, {})
        return Item("imported", name, f"import {{{told} as {name}}} from '{spec}';", {}, {name: of}, {}, {})

    def imported_type(self, name):
        spec, told, of = self.taken("type")
        return Item("imported_type", name, f"import type {{{told} as {name}}} from '{spec}';", {name: of}, {}, {}, {})

    def handed_on(self, name):
        spec, told, of = self.taken("value")
        name = self.one((name, told))
        return Item("handed_on", name, f"export {{{told} as {name}}} from '{spec}';", {}, {}, {}, {name: of})

    def handed_on_type(self, name):
        spec, told, of = self.taken("type")
        name = self.one((name, told))
        return Item("handed_on_type", name, f"export type {{{told} as {name}}} from '{spec}';", {}, {}, {name: of}, {})

    def specifier(self, other):
        if self.chance(0.04):
            return self.one(("react", "./", "..", ".", "./nowhere", "../../a", "./d/..", ""))
        path = posixpath.relpath(other, posixpath.dirname(self.path) or ".")
        path = path if path.startswith("../") else f"./{path}"
        if path.endswith("/index.js") and self.chance(0.7):
            return path.removesuffix("/index.js")
        return path.removesuffix(".js") if self.chance(0.8) else path

    # Modules.

    def item(self, make, name):
        item = getattr(self, make)(name)
        self.types.update(item.types)
        self.values.update(item.values)
        return item

    def opened(self, path, items=()):
        """Goes on with a module that has these items."""
        self.path, self.types, self.values = path, {}, {}
        for item in items:
            self.types.update(item.types)
            self.values.update(item.values)

    def module(self, path):
        """The items of a new module."""
        self.opened(path)
        items = [self.item(self.one(("imported", "imported_type")), name) for name in self.some(3, lambda: self.one("ijkIJ"))]
        for number in range(self.random.randint(0, 5)):
            make = self.one(MAKES)
            items.append(self.item(make, f"{LETTERS.get(make, 'a')}{number if self.chance(0.9) else 0}"))
        return items

    def changed(self, path):
        """The items of a module behind an edit."""
        items = list(self.modules.get(path, ()))
        if not items or self.chance(0.15):
            return self.module(path)
        self.opened(path, items)
        at, how = self.random.randrange(len(items)), self.random.random()
        if how < 0.55:
            items[at] = self.item(items[at].make, items[at].name)
        elif how < 0.7:
            del items[at]
        elif how < 0.85:
            items.insert(at, self.item(self.one((*MAKES, "imported", "imported_type")), self.one(("a0", "T0", "f1", "n"))))
        else:
            self.random.shuffle(items)
        return items

    def text(self, path, items):
        """The text of a module with these items, which is broken now and then."""
        self.modules[path] = items
        text = "".join(f"{item.text}\n" for item in items)
        if self.chance(0.1):
            text = self.one(("// @flow\n", "/* \u20ac */ ", "\n\n", "\ufeff")) + text
        if self.chance(0.92):
            return text
        at = self.random.randint(0, len(text))
        return text[:at] + self.one(("", "#", "@", "}", "(", '"', "`", "/*", " = ", "\u0000", "const x = 1", "?" * 201)) + text[at + self.random.randint(0, 3) :]

    # Scripts: lists of steps, each a word, mostly a path, and for an edit or a change of a file what stands there then.

    def script(self):
        """A folder, as a map from paths to what stands there, and steps over it."""
        paths = self.random.sample(PATHS, self.random.randint(0, 6))
        for path in paths:  # (so that the first ones know of the others too)
            self.modules[path] = self.module(path)
        folder = {path: self.file(path, self.module(path)) for path in paths}
        steps, texts = [], ["", *(it.decode(errors="replace") for it in folder.values())]
        for _ in range(self.random.randint(1, 6)):
            for _ in range(self.random.choice((0, 1, 1, 1, 2, 2, 3, 5))):
                steps += self.edits(texts)
            if self.chance(0.1):
                steps.append(("status",))
            if self.chance(0.3):
                steps += [("stop", str(self.random.randint(1, 12))), ("status",)]
            steps += [("recheck",), ("status",)]
        if self.chance(0.2):
            steps.append(("end",))
        return folder, steps

    def file(self, path, items):
        """What stands in a file: the text of a module, and now and then bytes that are none."""
        text = self.text(path, items).encode()
        return text + b"\xff" if self.chance(0.03) else text

    def edits(self, texts):
        """One edit, with the changes of files that go with it."""
        path = self.one(self.modules) if self.modules and self.chance(0.8) else self.one(PATHS)
        how = self.random.random()
        if how < 0.15:
            return [("delete", path)]
        if how < 0.25:
            return [("edit", path, self.one(texts))]
        if how < 0.3:
            return [("touch", path)]
        if how < 0.45:
            left = self.one((None, self.file(path, self.changed(path)), self.file(path, self.changed(path))))
            left = TOO_LARGE if self.chance(0.1) else left
            return [("file", path, left)] + [("touch", path)] * self.chance(0.9)
        texts.append(self.text(path, self.changed(path)))
        return [("edit", path, texts[-1])]


# What is to be printed.


FRESH = re.compile(r"recheck 1: (?P<modules>\d+) parsed, \d+ checked, (?P<count>\d+) errors\n1 status: (?P<again>\d+) errors\n(?P<errors>(?:  .*\n)*)")


class Wrong(Exception):
    """What is printed is not what must be."""


class Model:
    """What is committed, what is edited, and what the folder has, each by paths. It asks fresh runs what is printed of a program."""

    def __init__(self, room, folder):
        self.room, self.files, self.written = room, dict(folder), None
        self.version, self.program, self.printed = 0, {}, []
        self.edits = {path: ("touch",) for path in folder}

    def left_by(self, path, word, text=None):
        """What an edit leaves at a path: a text, or nothing."""
        return self.files.get(path) if word == "touch" else text

    def recheck(self, told, stop=0):
        """Takes the line that a recheck prints, which may be told to stop at a poll.

        One that is refused or cancelled leaves all as it was. How many polls there are isn't known here: where it was not
        cancelled it must be done, with as many modules read as are new or have other bytes, and at least as many checked.
        """
        left = {path: self.left_by(path, *self.edits[path]) for path in sorted(self.edits, key=str.encode)}
        for path, text in left.items():
            if text is TOO_LARGE:
                return self.expect(told, re.escape(f"recheck cannot read {path}, still {self.version}"))
        if stop and told == f"recheck cancelled at poll {stop}, still {self.version}":
            return None
        old = self.program
        self.version, self.edits = self.version + 1, {}
        self.program = {path: text for path, text in {**self.program, **left}.items() if text is not None}
        self.printed = self.fresh()
        parsed = sum(old.get(path) != text for path, text in self.program.items())
        checked = self.expect(told, f"recheck {self.version}: {parsed} parsed, (?P<checked>\\d+) checked, {len(self.printed)} errors")["checked"]
        if not parsed <= int(checked) <= len(self.program):
            raise Wrong(f"it printed {told!r} of {len(self.program)} modules")
        return None

    def expect(self, told, pattern):
        """A line must be of this form."""
        found = re.fullmatch(pattern, told)
        if not found:
            raise Wrong(f"it printed {told!r}, and nothing of the form {pattern!r}")
        return found

    def fresh(self):
        """The lines of the errors that a fresh run prints of the program."""
        if self.program == self.written:
            return self.printed
        written = self.written or {}
        for path in {**written, **self.program}:
            left = self.program.get(path)
            if left != written.get(path):
                put(self.room, path, left)
        self.written = self.program
        status, out, said = run(self.room, stdin=None, input=STATUS)
        told = FRESH.fullmatch(out.decode())
        errors = told["errors"].split("\n")[:-1] if told else []
        if not told or said or status != self.status_of(errors) or {told["count"], told["again"]} != {str(len(errors))} or told["modules"] != str(len(self.program)):
            raise Wrong(f"a fresh run ended with {status}, printed {out} and said {said}")
        return errors

    def status(self):
        return [f"{self.version} status: {len(self.printed)} errors", *self.printed]

    def status_of(self, errors):
        return ERRORS if errors else CLEAN


def put(root, path, left):
    """Makes a file have what is given, or not be there."""
    path = f"{root}/{path}"
    if left is None:
        os.remove(path)
        return
    os.makedirs(os.path.dirname(path), exist_ok=True)
    with open(path, "wb") as file:
        file.write(b"" if left is TOO_LARGE else left)
        if left is TOO_LARGE:
            file.truncate(MOST_BYTES + 1)


class Server:
    """The program, which is told a line and answers with lines."""

    def __init__(self, root):
        self.flowd = subprocess.Popen([FLOWD, root], stdin=subprocess.PIPE, stdout=subprocess.PIPE, stderr=subprocess.STDOUT, bufsize=0)
        self.got = b""

    def say(self, text):
        try:
            self.flowd.stdin.write(text)
        except BrokenPipeError:
            raise Wrong(f"it ended with {self.flowd.wait(SECONDS)} and printed {self.got}") from None

    def line(self):
        until = time.monotonic() + SECONDS
        while b"\n" not in self.got:
            if not select.select([self.flowd.stdout], [], [], max(0, until - time.monotonic()))[0]:
                raise Wrong(f"it printed {self.got} and no more")
            more = os.read(self.flowd.stdout.fileno(), 65_536)
            if not more:
                raise Wrong(f"it ended with {self.flowd.wait(SECONDS)} and printed {self.got}")
            self.got += more
        told, _, self.got = self.got.partition(b"\n")
        return told.decode()

    def expect(self, lines):
        for wanted in lines:
            told = self.line()
            if told != wanted:
                raise Wrong(f"it printed {told!r}, and not {wanted!r}")

    def end(self, status):
        self.flowd.stdin.close()
        ended = self.flowd.wait(SECONDS), self.got + self.flowd.stdout.read()
        if ended != (status, b""):
            raise Wrong(f"it ended with {ended[0]} and printed {ended[1]} at last, and not with {status}")


def edit(path, text):
    return line(do="edit", path=path, text=text)


def take(step, server, model, root):
    """Takes a step of a script."""
    word, path, left = (*step, None, None)[:3]
    if word == "file":
        if left is not None or model.files.get(path) is not None:
            put(root, path, left)
        model.files[path] = left
    elif word == "recheck":
        server.say(RECHECK)
        model.recheck(server.line())
    elif word == "stop":
        server.say(line(do="recheck", stop=int(path)))
        model.recheck(server.line(), int(path))
    elif word == "status":
        server.say(STATUS)
        server.expect(model.status())
    elif word == "end":
        server.say(END)
    else:
        server.say(edit(path, left) if word == "edit" else delete(path) if word == "delete" else touch(path))
        model.edits[path] = (word, left.encode()) if word == "edit" else (word,)


def fault_of(case):
    """What is wrong with what is printed of a script over a folder, if anything is."""
    folder, steps = case
    with tempfile.TemporaryDirectory(prefix="flowd-tests-") as room:
        for name in ("folder", "fresh"):
            os.mkdir(f"{room}/{name}")
        for path, left in folder.items():
            put(f"{room}/folder", path, left)
        model, server, at = Model(f"{room}/fresh", folder), Server(f"{room}/folder"), "the load"
        try:
            model.recheck(server.line())
            for number, step in enumerate(steps, 1):
                at = f"step {number}, {step[0]}"
                take(step, server, model, f"{room}/folder")
            at = "the end"
            server.end(model.status_of(model.printed))
        except Wrong as why:
            return f"at {at}: {why}"
        finally:
            server.flowd.kill()
            server.flowd.wait()
            server.flowd.stdin.close()
            server.flowd.stdout.close()
    return None


# Making a case shorter.


def shorter(parts):
    """Lists with less of the parts: without a half, a quarter and so on, and in the end without one."""
    size = len(parts)
    while size > 1:
        size = (size + 1) // 2
        yield from (parts[:at] + parts[at + size :] for at in range(0, len(parts), size))


def without_a_line(text):
    end = b"\n" if isinstance(text, bytes) else "\n"
    lines = text.split(end)
    yield from (end.join(it) for it in shorter(lines))
    if len(lines) == 1 and text:
        yield text[:0]


def smaller(case):
    """Cases that are a little smaller."""
    folder, steps = case
    yield from ((folder, it) for it in shorter(steps))
    yield from ((dict(it), steps) for it in shorter([*folder.items()]))
    if len(folder) == 1:
        yield {}, steps
    for number, (word, *rest) in enumerate(steps):
        if isinstance(rest[-1:] and rest[-1], (str, bytes)) and len(rest) == 2:
            yield from ((folder, [*steps[:number], (word, rest[0], it), *steps[number + 1 :]]) for it in without_a_line(rest[1]))
    for path, text in folder.items():
        yield from (({**folder, path: it}, steps) for it in without_a_line(text))


def smallest(case, fault):
    """The smallest case that was found in so many tries, and what is wrong with it."""
    left, again = TRIES, True
    while again:
        again = False
        for it in smaller(case):
            left -= 1
            found = fault_of(it) if left > 0 else None
            if found:
                case, fault, again = it, found, True
                break
    return case, fault


def told(case):
    """A case as lines."""
    folder, steps = case
    for path, text in folder.items():
        yield f"   file {path} {text}"
    for word, *rest in steps:
        text = ["too large"] if rest[1:] == [TOO_LARGE] else rest[1:]
        yield "   " + " ".join([word, *rest[:1], *(json.dumps(it) if isinstance(it, str) else str(it) for it in text)])


def main():
    words = argparse.ArgumentParser(add_help=False, usage=__doc__)
    words.add_argument("--scripts", type=int, default=200)
    words.add_argument("--seed", type=int, default=1)
    words.add_argument("--only", type=int)
    words = words.parse_args()
    chosen = [words.only] if words.only is not None else range(words.scripts)
    failed = 0
    with ThreadPoolExecutor(AT_ONCE) as pool:
        cases = ((number, Maker(f"{words.seed} {number}").script()) for number in chosen)
        for (number, case), fault in pool.map(lambda it: (it, fault_of(it[1])), cases):
            if fault:
                failed += 1
                print(f"FAILED: seed {words.seed}, script {number}, {fault}", flush=True)
                if failed <= 3:
                    case, fault = smallest(case, fault)
                    print(f"   It is short as this: {fault}", *told(case), sep="\n", flush=True)
    print(f"{len(chosen) - failed} passed, {failed} failed")
    return 1 if failed or not chosen else 0


if __name__ == "__main__":
    go_straight()
    sys.exit(main())
