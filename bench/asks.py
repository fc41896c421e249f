#!/usr/bin/env python3
"""Times each question over a pipe, beside the same one to TypeScript's language service over the same modules in the same run.

    bench/asks.py                       300 and 4,096 generated modules
    bench/asks.py SHAPE COUNT..         modules of one shape alone; SHAPE is generated or dense

All are asked of the module that has 14 importers, or as near to it as there is one. The least, the median and the most milliseconds
of twenty times are told, behind one that isn't counted. Behind each question stands one of a path that no module has, whose line ends
the answer: its own time is told first. A question by itself waits twice for the pipe, which TypeScript's service does not use: so what
each one takes of a hundred that are sent at once is told too. TypeScript's service has the type at a place (getQuickInfoAtPosition),
the errors of a file and of a changed text (getSemanticDiagnostics), who refers to a file (getFileReferences).

FLOWD names another program in the place of crates/flowd/out/flowd, which ./build builds. TypeScript is that of Debian's node-typescript.
"""

import json
import os
import statistics
import subprocess
import sys
import tempfile
import time

sys.path.insert(0, os.path.dirname(os.path.abspath(__file__)))
from modules import SHAPES, TOP, words_of, write
from recheck import Session, chosen

TIMES, MANY = 20, 100
LAST = {"what": "importers", "path": "no/such.js"}
MORE = "export const more{n}: number = {n};\n"


def place_of(text, words):
    """The line and the column of these words, and their place."""
    at = text.index(words)
    before = text[:at]
    return {"line": before.count("\n") + 1, "col": at - before.rfind("\n"), "at": at}


class Asking(Session):
    """flowd, asked questions."""

    def ask(self, *questions):
        """Sends questions, and returns the lines of their answers and the milliseconds until they were there."""
        script = b"".join(json.dumps({"do": "ask", "ask": it}).encode() + b"\n" for it in (*questions, LAST))
        begin = time.perf_counter()
        self.child.stdin.write(script)
        self.child.stdin.flush()
        lines = []
        while not (line := self.child.stdout.readline()).endswith(b" unknown path no/such.js\n"):
            if not line:
                sys.exit(f"flowd ended at {questions[0]}, behind {b''.join(lines)[-200:]}")
            lines.append(line)
        return lines, (time.perf_counter() - begin) * 1000


def questions(texts, ending):
    """What is asked, each by its kind: a question for each time that it is asked."""
    name, importers = chosen(texts)
    path, text = f"{name}.{ending}", texts[name]
    place = place_of(text, "x.a" if "x.a" in text else "tags.length")
    same = {
        "the least": {"what": "importers", "path": "no/other.js"},
        "status": {"what": "status"},
        "errors": {"what": "errors", "path": path},
        "type-at-pos": {"what": "type-at-pos", "path": path, **place},
        "find-module": {"what": "find-module", "path": path, "spec": f"./{min(texts)}"},
        "ls": {"what": "ls"},
        f"importers, {importers[name]} of them": {"what": "importers", "path": path},
        "signature": {"what": "signature", "path": path},
    }
    asked = {kind: [it] * (TIMES + 1) for kind, it in same.items()}
    asked["check-contents"] = [{"what": "check-contents", "path": path, "text": text + MORE.format(n=n)} for n in range(TIMES + 1)]
    return asked


def said(who, kind, times):
    print(f"  {who:6} {kind:26} {min(times):9.3f} {statistics.median(times):9.3f} {max(times):9.3f} ms", flush=True)


def of_flowd(folder, asked, words):
    session = Asking(folder, words)
    taken = {kind: [session.ask(it)[1] for it in rows][1:] for kind, rows in asked.items()}
    at_once = {kind: [session.ask(*[it] * MANY)[1] / MANY for it in rows][1:] for kind, rows in asked.items()}
    status, peak = session.end()
    if status or not session.load.endswith(b" 0 errors\n"):
        sys.exit(f"flowd ended with status {status}, and the load said {session.load}")
    return session.load_seconds, taken, at_once, peak


def of_typescript(folder, asked):
    """The milliseconds of each question that the language service has."""
    rows = [it for kind in asked for it in asked[kind]]
    node = subprocess.run(["node", f"{TOP}/bench/asks.js"], input=json.dumps({"load": folder, "asks": rows}).encode(), stdout=subprocess.PIPE, check=True)
    if not node.stdout.startswith(b"{"):
        sys.exit(node.stdout.decode())
    answers = json.loads(node.stdout)
    times = iter(answers["times"])
    taken = {kind: [next(times) for _ in asked[kind]][1:] for kind in asked}
    return answers["load"] / 1000, {kind: row for kind, row in taken.items() if None not in row}


def compare(shape, count):
    with tempfile.TemporaryDirectory(prefix="flowd-bench-") as room:
        write(f"{room}/js", shape, count, False)
        write(f"{room}/ts", shape, count, True)
        js, ts = (dict(SHAPES[shape](count, is_ts)) for is_ts in (False, True))
        load, taken, at_once, peak = of_flowd(f"{room}/js", questions(js, "js"), words_of(count))
        print(f"{shape}: {count} modules\n  flowd's load {load:.2f} s, {peak:.0f} MB at the most")
        theirs_load, theirs = of_typescript(f"{room}/ts", questions(ts, "ts"))
        print(f"  tsc's load {theirs_load:.2f} s                        least    median      most")
        for kind, times in taken.items():
            said("flowd", kind, times)
            said("flowd", f"  each of {MANY} at once", at_once[kind])
            if kind in theirs:
                said("tsc", kind, theirs[kind])
                shares = [statistics.median(it) / statistics.median(theirs[kind]) for it in (times, at_once[kind])]
                print(f"         flowd takes {shares[0]:.4f} of the time, each of {MANY} at once {shares[1]:.4f}", flush=True)


def main(words):
    for row in [(words[0], int(count)) for count in words[1:]] or [("generated", 300), ("generated", 4096)]:
        compare(*row)


if __name__ == "__main__":
    main(sys.argv[1:])
