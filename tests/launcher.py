#!/usr/bin/env python3
"""Runs ./flowd where the proved program is there and where it isn't, and ./build --unproved.

    tests/launcher.py [WORD]       (only the cases whose name has this word)

Which program is run is shown with programs that say their name. That the program with no proof prints what the proved one
does is shown where the proved one is there: the other one is compiled, which takes two minutes, and both are run over the
example, the programs of programs.txt, and scripts and words of each status. The last line is 'N passed, M failed'.
"""

import os
import pty
import shutil
import subprocess
import sys
from concurrent.futures import ThreadPoolExecutor

sys.path.insert(0, os.path.dirname(os.path.abspath(__file__)))
import programs
import real_folders
from real_folders import BAD, TOP, LeftOut, write

PROVED, UNPROVED = f"{TOP}/crates/flowd/out/flowd", f"{TOP}/.flowd/unproved"
NOTE = b"flowd: this program is not proved; ./build proves its sources and builds the proved one\n"
CASES = real_folders.CASES = []


def case(test):
    CASES.append(test)
    return test


# Which program is run.


def repository(root):
    """A repository with the launcher, a crate, and a `build` that makes a program that says its name."""
    for name in ("src", "specs", "proofs"):
        write(f"{root}/crates/flowd/{name}/main.rt", b"")
    write(f"{root}/crates.txt", b"flowd:\n")
    shutil.copy(f"{TOP}/flowd", f"{root}/flowd")
    program(f"{root}/build", f'mkdir -p "{root}/.flowd"; echo building "$@" >&2; cp "{root}/other" "{root}/.flowd/unproved"')
    program(f"{root}/other", 'echo other "$@"; cat; exit 2')
    return root


def program(path, script):
    write(path, f"#!/bin/sh\n{script}\n".encode())
    os.chmod(path, 0o755)


def at(path, seconds):
    os.utime(path, (seconds, seconds))


def launched(root, *words):
    ran = subprocess.run([f"{root}/flowd", *words], input=b"input\n", capture_output=True, timeout=60)
    return ran.returncode, ran.stdout, ran.stderr


def expect(given, wanted):
    if given != wanted:
        raise AssertionError(f"status, output and standard error are {given}, and not {wanted}")


OTHER = 2, b"other x\ninput\n"


@case
def a_program_with_no_proof_is_compiled_once(root):
    repository(root)
    expect(launched(root, "x"), (*OTHER, b"building --unproved\n" + NOTE))
    expect(launched(root, "x"), (*OTHER, NOTE))


@case
def a_newer_source_is_compiled_again(root):
    repository(root)
    launched(root, "x")
    at(f"{root}/.flowd/unproved", 1_000_000_000)
    expect(launched(root, "x"), (*OTHER, b"building --unproved\n" + NOTE))


@case
def what_is_only_proved_is_not_compiled_again(root):
    """No proof and no definition is part of what is compiled."""
    repository(root)
    launched(root, "x")
    at(f"{root}/.flowd/unproved", 1_000_000_000)
    for name in ("crates.txt", "crates/flowd/src", "crates/flowd/src/main.rt"):
        at(f"{root}/{name}", 900_000_000)
    expect(launched(root, "x"), (*OTHER, NOTE))


@case
def the_proved_program_is_run_where_it_is_there(root):
    repository(root)
    program(f"{root}/crates/flowd/out/flowd", 'echo proved "$@"; cat; exit 65')
    expect(launched(root, "x y", ""), (65, b"proved x y \ninput\n", b""))


@case
def a_proved_program_that_a_source_is_newer_than_is_not_run(root):
    repository(root)
    program(f"{root}/crates/flowd/out/flowd", "echo proved")
    at(f"{root}/crates/flowd/out/flowd", 1_000_000_000)
    expect(launched(root, "x"), (*OTHER, b"building --unproved\n" + NOTE))


@case
def a_build_that_fails(root):
    repository(root)
    program(f"{root}/build", "echo why >&2; exit 7")
    expect(launched(root, "x"), (1, b"", b"why\n"))


@case
def at_a_terminal_it_says_that_it_waits(root):
    repository(root)
    program(f"{root}/crates/flowd/out/flowd", "echo proved")
    os.mkdir(f"{root}/d")
    for word, told in ((f"{root}/d", b"waiting for commands"), (f"{root}/e", b"")):
        try:
            ours, theirs = pty.openpty()
        except OSError as why:
            raise LeftOut("this machine has no terminals") from why
        with os.fdopen(ours, "rb"), os.fdopen(theirs, "rb") as terminal:
            ran = subprocess.run([f"{root}/flowd", word], stdin=terminal, capture_output=True, timeout=60)
        if ran.stdout != b"proved\n" or (told not in ran.stderr if told else ran.stderr):
            raise AssertionError(f"it printed {ran.stdout} and {ran.stderr}")


# Both programs.


def is_new(path, parts=("src", "specs", "proofs")):
    sources = [f"{TOP}/crates.txt"]
    for crate in os.listdir(f"{TOP}/crates"):
        for part in parts:
            sources += [f"{at}/{name}" for at, _, names in os.walk(f"{TOP}/crates/{crate}/{part}") for name in names]
    return os.access(path, os.X_OK) and os.path.getmtime(path) >= max(map(os.path.getmtime, sources))


def told(path, words, script):
    ran = subprocess.run([path, *words], input=script, capture_output=True, timeout=100)
    return ran.returncode, ran.stdout, ran.stderr


def runs(root):
    """The words and the script of each run."""
    with open(f"{TOP}/examples/script", "rb") as script:
        yield [f"{TOP}/examples/shop"], script.read()
    for number, (_, modules, _) in enumerate(programs.written()):
        for path, text in modules:
            write(f"{root}/{number}/{path.decode()}", text)
        yield [f"{root}/{number}"], programs.STATUS
    write(f"{root}/bad/a.js", BAD)
    for script in (b"no command\n", b" " * 4_194_305, b'{"do":"edit","path":"b.js","text":""}\n{"do":"recheck"}\n'):
        yield [f"{root}/bad"], script
    for words in ([], ["--gen", "1"], [f"{root}/none"]):
        yield words, b""


@case
def both_programs_print_the_same(root):
    if not is_new(PROVED):
        raise LeftOut("the proved program is not there, or a source is newer: ./build builds it")
    if not is_new(UNPROVED, ["src"]):
        subprocess.run([f"{TOP}/build", "--unproved"], timeout=1200, check=True)
    both = list(runs(root))
    with ThreadPoolExecutor(os.cpu_count()) as pool:
        proved, other = (list(pool.map(lambda it: told(path, *it), both)) for path in (PROVED, UNPROVED))
    wrong = [words for (words, _), one, two in zip(both, proved, other, strict=True) if one != two]
    if wrong or len({it[0] for it in proved}) < 5:
        raise AssertionError(f"they differ at {wrong[:3]}, {len(wrong)} of {len(both)} runs; the statuses are {({it[0] for it in proved})}")
    print(f"   ({len(both)} runs)")


if __name__ == "__main__":
    sys.exit(real_folders.main())
