#!/usr/bin/env python3
"""Measures a script of edits and rechecks: time for each recheck, and the peak of memory.

    bench/script.py [MODULES [EDITS]]        (1024 modules and 1000 edits where no number is given)

It writes a folder of that many modules with 250 lines each, and a script that edits one module after the other and
rechecks after each edit. A recheck reads and checks the edited module alone.
"""

import json
import os
import subprocess
import sys
import tempfile
import time

sys.path.insert(0, os.path.dirname(os.path.abspath(__file__)))
from first import FOLDER, TOP, module, write


def script(count, edits):
    """The lines of a script that edits one module after the other."""
    text = module()
    for number in range(edits):
        place = number % count
        path = f"part{place // FOLDER}/module{place}.js"
        changed = text.replace("12345", str(10_000 + number), 1)
        yield json.dumps({"do": "edit", "path": path, "text": changed}) + "\n"
        yield json.dumps({"do": "recheck"}) + "\n"


def main():
    count, edits = ([int(word) for word in sys.argv[1:]] + [1024, 1000][len(sys.argv) - 1 :])[:2]
    if subprocess.run([f"{TOP}/build"]).returncode:
        sys.exit(1)
    with tempfile.TemporaryDirectory(prefix="flowd-bench-") as room:
        _, size = write(f"{room}/d", count)
        with open(f"{room}/script", "w", encoding="ascii") as file:
            file.writelines(script(count, edits))
        with open(f"{room}/script", "rb") as lines, open(f"{room}/out", "wb") as out:
            began = time.perf_counter()
            started = subprocess.Popen([f"{TOP}/crates/flowd/out/flowd", f"{room}/d"], stdin=lines, stdout=out)
            _, status, used = os.wait4(started.pid, 0)
            seconds = time.perf_counter() - began
        with open(f"{room}/out", encoding="ascii") as out:
            printed = out.read().splitlines()
    wanted = [f"recheck 1: {count} parsed, {count} checked, 0 errors"]
    wanted += [f"recheck {version}: 1 parsed, 1 checked, 0 errors" for version in range(2, edits + 2)]
    if printed != wanted or status:
        sys.exit(f"flowd ended with status {status}, and not all its lines are as wanted")
    print(f"{count} modules, {size / 1e6:.1f} MB, {edits} edits, each with a recheck")
    print(f"  {seconds:.1f} s in all with the load, {seconds / (edits + 1) * 1000:.1f} ms a recheck")
    print(f"  {used.ru_maxrss / 1024:.1f} MB of memory at the most")


if __name__ == "__main__":
    main()
