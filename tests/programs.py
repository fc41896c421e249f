#!/usr/bin/env python3
"""Runs ./flowd on the programs of programs.txt, each as a real folder with a script that asks for the status.

    tests/programs.py [WORD]       (only the cases whose name has this word)

A case of programs.txt is a line `# NAME`; for each module, in rising order of the paths, a line `@ PATH` and its source; and for
each error a line `! PATH:LINE:COL CODE DETAILS`, in the order in which they are printed. An empty line parts it from the next
one. A source is the lines behind its path, without the end of the last one; none of them begins as those lines do. The errors
were made from the language's description by hand, and most by a second implementation too. What can't be lines of a file
follows below. The last line is 'N passed, M failed'.
"""

import os
import re
import subprocess
import sys
import tempfile
from concurrent.futures import ThreadPoolExecutor

from real_folders import CLEAN, ERRORS, TOP, build, expect, recheck, run, write

STATUS = b'{"do":"ask","ask":{"what":"status"}}\n'

# Sources that can't be lines of a file: one that ends with a carriage return, two that are not UTF-8, two about the limit.
FURTHER = [
    ("every blank character", "\ufeffconst\u00a0a\u000b=\u000c1\u2028;\u2029\r".encode(), []),
    ("a byte that begins no character", b"const a = 1; \xff", [b"a.js:1:1 not-utf8"]),
    ("a surrogate", b"\xed\xa0\x80", [b"a.js:1:1 not-utf8"]),
    ("the longest source", b" " * 1_048_576, []),
    ("a source that is too long", b" " * 1_048_577, [b"a.js:1:1 source-too-long"]),
]


def case_of(text):
    """The name of a case, its modules, which are paths and texts, and the lines of its errors."""
    name, _, rest = text.partition(b"\n")
    parts = [(it[:1], it[2:].removesuffix(b"\n")) for it in re.split(rb"(?m)^(?=[@!] )", rest) if it]
    modules = [it.partition(b"\n")[::2] for mark, it in parts if mark == b"@"]
    return name.decode(), modules, [it for mark, it in parts if mark == b"!"]


def written():
    """The cases of programs.txt."""
    with open(f"{TOP}/tests/programs.txt", "rb") as file:
        first, *texts = re.split(rb"(?m)^# ", file.read() + b"\n")
    if first or not texts:
        raise ValueError("programs.txt begins with a name")
    return [case_of(it.removesuffix(b"\n")) for it in texts]


def expect_program(root, modules, errors):
    """What is printed of a program."""
    for path, text in modules:
        write(f"{root}/{path.decode()}", text)
    told = recheck(len(modules), len(errors)) + b"1 status: %d errors\n" % len(errors) + b"".join(b"  %s\n" % it for it in errors)
    expect(run(root, stdin=None, input=STATUS), ERRORS if errors else CLEAN, told)


def fault_of(test, root, case):
    """What is wrong with a case, if anything is."""
    try:
        test(root, *case[1:])
    except (AssertionError, OSError, subprocess.SubprocessError) as why:
        return f"{case[0]}: {why}"
    return None


def run_cases(cases, test):
    """Tries each case, which is a name and what the test takes behind a folder of its own, and returns the status of it all."""
    word = sys.argv[1] if len(sys.argv) > 1 else ""
    build()
    names = [name for name, *_ in cases]
    wrong = [f"{it}: two cases have this name" for it in sorted(set(names)) if names.count(it) > 1]
    with tempfile.TemporaryDirectory(prefix="flowd-tests-") as room, ThreadPoolExecutor(len(os.sched_getaffinity(0))) as pool:
        chosen = [it for it in enumerate(cases) if word in it[1][0]]
        wrong += filter(None, pool.map(lambda it: fault_of(test, f"{room}/{it[0]}", it[1]), chosen))
    for it in wrong:
        print(f"FAILED: {it if len(it) < 2000 else f'{it[:1500]} .. {it[-400:]}'}")
    print(f"{len(chosen) - len(wrong)} passed, {len(wrong)} failed")
    return 1 if wrong or not chosen else 0


def main():
    cases = [*written(), *((name, [(b"a.js", source)], errors) for name, source, errors in FURTHER)]
    return run_cases(cases, expect_program)


if __name__ == "__main__":
    sys.exit(main())
