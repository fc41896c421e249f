#!/usr/bin/env python3
"""Times rechecks after edits, over a pipe, beside TypeScript's builder program over the same modules and edits in the same run.

    bench/recheck.py                       300 and 1,000 generated modules, and 300 dense ones
    bench/recheck.py SHAPE COUNT..         modules of one shape alone; SHAPE is generated or dense
    bench/recheck.py memory COUNT          the peak of memory after ten rechecks and after 1,000

The edits: ten of a body, ten of a signature (of the module that has 14 importers, or as near to it as there is one), each with its
recheck, then ten that add a module each and ten that remove them. The least, the median and the most milliseconds of each are told.
More than 1,014 modules are said by the word --modules; COUNT is 4,086 at the most, since modules are added.
FLOWD names another program in the place of crates/flowd/out/flowd, which ./build builds. TypeScript is that of Debian's node-typescript.
"""

import json
import os
import re
import statistics
import subprocess
import sys
import tempfile
import time

sys.path.insert(0, os.path.dirname(os.path.abspath(__file__)))
from modules import FLOWD, SHAPES, TOP, write

MORE = 10  # modules that are added
IMPORT = re.compile(r"from '\./(\w+)'")


class Session:
    """flowd over a folder, with its script and its answers on pipes."""

    def __init__(self, folder, words=()):
        self.child = subprocess.Popen([FLOWD, *words, folder], stdin=subprocess.PIPE, stdout=subprocess.PIPE)
        begin = time.perf_counter()
        self.load = self.child.stdout.readline()
        self.load_seconds = time.perf_counter() - begin

    def recheck(self, edit):
        """Sends an edit and a recheck, and returns the line that is answered and the milliseconds until it came."""
        told = {"do": "delete", "path": edit["path"]} if "text" not in edit else {"do": "edit", **edit}
        begin = time.perf_counter()
        self.child.stdin.write(json.dumps(told).encode() + b'\n{"do":"recheck"}\n')
        self.child.stdin.flush()
        line = self.child.stdout.readline()
        return line, (time.perf_counter() - begin) * 1000

    def end(self):
        self.child.stdin.close()
        self.child.stdout.read()
        _, status, usage = os.wait4(self.child.pid, 0)
        return os.waitstatus_to_exitcode(status), usage.ru_maxrss / 1024


def chosen(texts):
    """The module with 14 importers, or as near to that as there is one."""
    importers = dict.fromkeys(texts, 0)
    for text in texts.values():
        for name in set(IMPORT.findall(text)):
            importers[name] += 1
    return min(texts, key=lambda name: abs(importers[name] - 14)), importers


def edits_of(texts):
    """Each kind of edit with its edits, by module and text."""
    name, importers = chosen(texts)
    body, signature = [], []
    text = texts[name]
    for n in range(1, 11):
        body.append((name, re.sub(r"return x\.a \+ \d+|return depth > tags\.length", f"return x.a + {n}" if "x.a" in text else "return depth + 0 > tags.length" if n % 2 else "return depth > tags.length", text, count=1)))
    for n in range(1, 11):
        signature.append((name, text + f"export const more{n}: number = {n};\n"))
    added = [(f"zz{n}", "export const z: number = 1;\n") for n in range(MORE)]
    return {"body": body, f"signature, {importers[name]} importers": signature, "added": added, "removed": [(name, None) for name, _ in added]}


def as_edits(rows, ending):
    return [{"path": f"{name}.{ending}", **({} if text is None else {"text": text})} for name, text in rows]


def said(who, kind, times):
    print(f"  {who:12} {kind:26} {min(times):9.2f} {statistics.median(times):9.2f} {max(times):9.2f} ms", flush=True)


def of_flowd(folder, kinds, words):
    session = Session(folder, words)
    taken, lines = {}, {}
    for kind, rows in kinds.items():
        answers = [session.recheck(edit) for edit in as_edits(rows, "js")]
        taken[kind], lines[kind] = [ms for _, ms in answers], answers[-1][0].decode().strip()
    status, peak = session.end()
    if status or not session.load.endswith(b" 0 errors\n"):
        sys.exit(f"flowd ended with status {status}, and the load said {session.load}")
    return session.load_seconds, taken, lines, peak


def of_typescript(folder, kinds):
    asked = {"load": folder, "edits": [edit for rows in kinds.values() for edit in as_edits(rows, "ts")]}
    node = subprocess.run(["node", f"{TOP}/bench/recheck.js"], input=json.dumps(asked).encode(), stdout=subprocess.PIPE, check=True)
    if not node.stdout.startswith(b"["):
        sys.exit(node.stdout.decode())
    answers = json.loads(node.stdout)
    times = iter([answer["ms"] for answer in answers[1:]])
    return answers[0]["ms"] / 1000, {kind: [next(times) for _ in rows] for kind, rows in kinds.items()}


def compare(shape, count):
    with tempfile.TemporaryDirectory(prefix="flowd-bench-") as room:
        write(f"{room}/js", shape, count, False)
        write(f"{room}/ts", shape, count, True)
        js, ts = (dict(SHAPES[shape](count, is_ts)) for is_ts in (False, True))
        words = ["--modules", str(count + MORE)] if count + MORE > 1024 else []
        load, taken, lines, peak = of_flowd(f"{room}/js", edits_of(js), words)
        print(f"{shape}: {count} modules")
        print(f"  flowd's load {load:.2f} s, {peak:.0f} MB at the most")
        theirs_load, theirs = of_typescript(f"{room}/ts", edits_of(ts))
        print(f"  tsc's load {theirs_load:.2f} s                            least    median      most")
        for kind in taken:
            said("flowd", kind, taken[kind])
            print(f"               {lines[kind]}")
            said("tsc", kind, theirs[kind])
            print(f"               flowd takes {statistics.median(taken[kind]) / statistics.median(theirs[kind]):.4f} of the time", flush=True)


def memory(count):
    with tempfile.TemporaryDirectory(prefix="flowd-bench-") as room:
        write(f"{room}/js", "generated", count, False)
        kinds = edits_of(dict(SHAPES["generated"](count, False)))
        rows = [edit for kind in list(kinds)[:2] for edit in as_edits(kinds[kind], "js")]
        for rechecks in (10, 1000):
            session = Session(f"{room}/js")
            for n in range(rechecks):
                session.recheck(rows[n % len(rows)])
            status, peak = session.end()
            print(f"{count} generated modules, {rechecks} rechecks: {peak:.1f} MB at the most, status {status}")


def main(words):
    if words[:1] == ["memory"]:
        return memory(int(words[1]))
    shape, counts = words[:1], [int(count) for count in words[1:]]
    for row in [(*shape, count) for count in counts] or [("generated", 300), ("generated", 1000), ("dense", 300)]:
        compare(*row)


if __name__ == "__main__":
    main(sys.argv[1:])
