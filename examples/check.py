#!/usr/bin/env python3
"""Shows the errors of a folder of modules, each with its line of source.

    examples/check.py FOLDER            checks the folder once; the status is 0 without errors, and 2 with some
    examples/check.py --watch FOLDER    then looks at the files, and shows which errors a change brings and takes away

Both run ./flowd; the variable FLOWD names another program. The first line of an error is PATH:LINE:COLUMN CODE DETAILS. Where
the folder can't be checked, a sentence on standard error says why, and the status is the program's (README.md lists them).
"""

import collections
import contextlib
import json
import os
import re
import subprocess
import sys
import time
import unicodedata

FLOWD = os.environ.get("FLOWD", os.path.join(os.path.dirname(os.path.realpath(__file__)), "..", "flowd"))
LONGEST_LINE = 4_194_304
WIDTH = 120
# Why the program ended before it had told its errors.
WHY = {
    1: "the program was not built",
    65: "{folder} has a name that can't be a path",
    66: "{folder} can't be listed: it is no folder, may not be read, or has a name that can't be a path",
    69: "{folder} has too many modules: 4,096 are the most",
    70: "there was not enough memory to check {folder}",
}

Error = collections.namedtuple("Error", "path line column code details")


class Ended(Exception):
    """The folder can't be checked: a sentence, and a status."""


class Unread(Ended):
    """A module can't be read, so nothing has changed. The next recheck tries again."""


# The program.


class Program:
    """flowd on a folder. Each command is a line; its answer is there before the next line is written."""

    def __init__(self, folder):
        self.folder, pipe = folder, subprocess.PIPE
        self.flowd = subprocess.Popen([FLOWD, "--modules=4096", folder], stdin=pipe, stdout=pipe)
        self.load = self.recheck_line()

    def say(self, **command):
        with contextlib.suppress(BrokenPipeError):  # (the next answer says that the program has ended)
            self.flowd.stdin.write(json.dumps(command).encode() + b"\n")
            self.flowd.stdin.flush()

    def line(self):
        line = self.flowd.stdout.readline().decode()
        if not line or line.startswith(("limit ", "bad line ")):
            status = self.flowd.wait()
            raise Ended(WHY.get(status, "the program ended with status {status}").format(folder=self.folder, status=status), status)
        return line[:-1]

    def recheck_line(self):
        """How many modules were read."""
        line = self.line()
        if line.startswith("too many modules "):
            raise Ended(WHY[69].format(folder=self.folder), 69)
        if line.startswith("recheck cannot read "):
            path = os.path.normpath(os.path.join(self.folder, line[20:].rpartition(", still ")[0]))
            raise Unread(f"{path} can't be read", 1)
        return int(line.split()[2])

    def recheck(self):
        self.say(do="recheck")
        self.recheck_line()

    def errors(self):
        self.say(do="ask", ask={"what": "status"})
        return [error_of(self.line()) for _ in range(int(self.line().split()[2]))]

    def end(self):
        with contextlib.suppress(BrokenPipeError):
            self.flowd.stdin.close()
        self.flowd.wait()


def error_of(line):
    path, at, column, code, details = re.fullmatch(r"  (.*?\.js):(\d+):(\d+) (\S+)(?: (.*))?", line).groups()
    return Error(path, int(at), int(column), code, details or "")


# What is shown.


def colours():
    is_wanted = sys.stdout.isatty() and "NO_COLOR" not in os.environ and os.environ.get("TERM") != "dumb"
    return {it: f"\033[{number}m" if is_wanted else "" for it, number in (("bold", 1), ("red", 31), ("green", 32), ("dim", 2), ("plain", 0))}


COLOUR = colours()


def plain(text):
    """The text without what would move a terminal's cursor."""
    return "".join(it if it == "\t" or unicodedata.category(it) not in ("Cc", "Cf", "Zl", "Zp") else "\ufffd" for it in text)


def blank_as_wide_as(text):
    wide = lambda it: 0 if unicodedata.combining(it) else 2 if unicodedata.east_asian_width(it) in "WF" else 1
    return "".join("\t" if it == "\t" else " " * wide(it) for it in text)


class Sources:
    """The lines of modules, as they were read or sent."""

    def __init__(self, folder):
        self.folder, self.lines = folder, {}

    def put(self, path, text):
        self.lines[path] = text.split("\n")

    def line(self, error):
        if error.path not in self.lines:
            try:
                with open(os.path.join(self.folder, error.path), encoding="utf-8", errors="replace", newline="") as file:
                    self.put(error.path, file.read())
            except OSError:
                return ""
        lines = self.lines[error.path]
        return lines[error.line - 1].rstrip("\r") if error.line <= len(lines) else ""

    def show(self, error, sign=""):
        path = os.path.normpath(os.path.join(self.folder, error.path))
        told = f"{COLOUR['red']}{error.code}{COLOUR['plain']} {error.details}".rstrip()
        print(f"{sign}{COLOUR['bold']}{path}:{error.line}:{error.column}{COLOUR['plain']} {told}")
        line, at = plain(self.line(error)), error.column - 1
        if line.strip():
            begin = max(0, at - WIDTH // 2) if len(line) > WIDTH else 0
            number, part = f"{error.line:>5} | ", line[begin : begin + WIDTH]
            print(f"{COLOUR['dim']}{number}{COLOUR['plain']}{part}")
            print(f"{' ' * (len(number) - 2)}| {blank_as_wide_as(part[: at - begin])}{COLOUR['red']}^{COLOUR['plain']}")


def counted(count, what):
    return f"{count} {what}{'' if count == 1 else 's'}"


def summary(modules, errors):
    if not errors:
        return f"{COLOUR['green']}no errors{COLOUR['plain']} in {counted(modules, 'module')}"
    return f"{COLOUR['red']}{counted(len(errors), 'error')}{COLOUR['plain']} in {len({it.path for it in errors})} of {counted(modules, 'module')}"


def show_all(program, sources):
    errors = program.errors()
    for error in errors:
        sources.show(error)
    print(summary(program.load, errors), flush=True)
    return errors


# Watching.


def files_of(folder):
    """The modules of a folder, as the program finds them, with what tells that one has changed."""
    found = {}
    for at, folders, names in os.walk(folder):
        folders[:] = [it for it in folders if it != "node_modules" and not it.startswith(".")]
        for name in names:
            file = os.path.join(at, name)
            if name.endswith(".js") and not os.path.islink(file):
                try:
                    told = os.stat(file)
                except OSError:
                    continue
                found[os.path.relpath(file, folder)] = told.st_mtime_ns, told.st_size
    return found


def text_of(folder, path):
    """A module's text, and None where no edit can have it."""
    try:
        with open(os.path.join(folder, path), encoding="utf-8", newline="") as file:
            text = file.read(LONGEST_LINE)
    except (OSError, UnicodeDecodeError):
        return None
    return text if len(json.dumps(text)) + len(json.dumps(path)) + 100 < LONGEST_LINE else None


def keys_of(errors, sources):
    """The errors by what they say, wherever they stand: one that has moved is no new one."""
    return collections.Counter((it.path, it.code, it.details, sources.line(it).strip()) for it in errors)


def beyond(errors, sources, others):
    """The errors that the others don't have."""
    left = collections.Counter(others)
    for it in errors:
        key = it.path, it.code, it.details, sources.line(it).strip()
        if left[key] > 0:
            left[key] -= 1
        else:
            yield it


class Watch:
    def __init__(self, folder):
        # (the files first: what changes while the program loads them is then seen)
        self.folder, self.files = folder, files_of(folder)
        self.program, self.sources = Program(folder), Sources(folder)
        self.errors = show_all(self.program, self.sources)

    def look(self):
        """Takes what has changed since the last look, if anything has."""
        files = files_of(self.folder)
        changed = [it for it in files if files[it] != self.files.get(it)]
        gone = self.files.keys() - files.keys()
        self.files = files
        if changed or gone:
            began, before = time.monotonic(), self.sources
            self.sources = Sources(self.folder)
            try:
                modules = self.take(changed, gone)
                self.show(modules, before, time.monotonic() - began)
            except Ended as why:
                self.sources = before
                if not isinstance(why, Unread):
                    self.program = None
                print(f"check.py: {why.args[0]}", file=sys.stderr)

    def take(self, changed, gone):
        """Tells the program what has changed, and checks again; how many modules there are then. The program begins anew where it has
        ended."""
        if not self.program:
            self.program = Program(self.folder)
            return self.program.load
        for path in gone:
            self.program.say(do="delete", path=path)
        for path in changed:
            text = text_of(self.folder, path)
            if text is None:
                self.program.say(do="touch", path=path)
            else:
                self.sources.put(path, text)
                self.program.say(do="edit", path=path, text=text)
        self.program.recheck()
        return len(self.files)

    def show(self, modules, before, seconds):
        was, self.errors = self.errors, self.program.errors()
        were, are = keys_of(was, before), keys_of(self.errors, self.sources)
        for it in beyond(was, before, are):
            before.show(it, f"{COLOUR['green']}gone{COLOUR['plain']} ")
        for it in beyond(self.errors, self.sources, were):
            self.sources.show(it, f"{COLOUR['red']}new{COLOUR['plain']} ")
        print(f"{summary(modules, self.errors)}, {seconds:.2f} s", flush=True)


def watch(folder):
    watching = Watch(folder)
    try:
        while True:
            time.sleep(0.3)
            watching.look()
    except KeyboardInterrupt:
        return 2 if watching.errors else 0


def check(folder):
    program = Program(folder)
    errors = show_all(program, Sources(folder))
    program.end()
    return 2 if errors else 0


def main(words):
    if len(words) not in (1, 2) or words[-1].startswith("-") or words[:-1] not in ([], ["--watch"]):
        print(__doc__.strip(), file=sys.stderr)
        return 64
    try:
        return watch(words[-1]) if words[:-1] else check(words[-1])
    except Ended as why:
        sentence, status = why.args
        print(f"check.py: {sentence}", file=sys.stderr)
        return status


if __name__ == "__main__":
    try:
        sys.exit(main(sys.argv[1:]))
    except KeyboardInterrupt:
        sys.exit(130)
