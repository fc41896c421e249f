#!/usr/bin/env python3
"""Runs ./flowd where memory is wanting: each request for memory is refused in turn, and the address space is made small.

    tests/memory.py [--all] [--seed S] [WORD]       (only the cases whose name has this word)

Each run ends with status 70, and has printed a front of what a run with ample memory prints; or it ends and prints as that one
does. A library stands before the system's, which refuses the Nth request. Over a small run N is each number; over the example
it is some of them, drawn by the seed, and with --all each. The last line is 'N passed, M failed'.
"""

import argparse
import os
import random
import shutil
import subprocess
import sys
from concurrent.futures import ThreadPoolExecutor

sys.path.insert(0, os.path.dirname(os.path.abspath(__file__)))
import real_folders
from kills import ERROR, three
from real_folders import ERRORS, TOP, LeftOut, go_straight, recheck, run, write
from scripts import NO_MEMORY, RECHECK, STATUS, done, edit

AT_ONCE = 2  # runs
EACH, SAMPLE = 3000, 300  # requests of the small run and of the example's that are refused, at the most
SPREAD = 40  # by how many requests two runs may differ
SIZES = 25  # of the address space
STACK, AMPLE = 1 << 20, 60_000  # kilobytes that the thread that does all work asks for, and that are enough for the rest
REFUSED = b"refused\n"
NO_THREAD = b"flowd: no thread with a stack of 1 GiB could be started\n"
CASES = real_folders.CASES = []

# The Nth request for memory is refused, by whichever call, and standard error says so.
REFUSES = """
typedef unsigned long size;
extern void *__libc_malloc(size), *__libc_calloc(size, size), *__libc_realloc(void *, size), *__libc_memalign(size, size);
extern char *getenv(const char *);
extern long write(int, const void *, size), strtol(const char *, char **, int);
extern int *__errno_location(void);
static long refused, asked;
__attribute__((constructor)) static void start(void) { refused = strtol(getenv("REFUSED"), 0, 10); }
static int refuses(void) {
    if (!refused || __atomic_add_fetch(&asked, 1, __ATOMIC_SEQ_CST) != refused) return 0;
    write(2, "refused\\n", 8);
    *__errno_location() = 12;
    return 1;
}
void *malloc(size n) { return refuses() ? 0 : __libc_malloc(n); }
void *calloc(size k, size n) { return refuses() ? 0 : __libc_calloc(k, n); }
void *realloc(void *p, size n) { return refuses() ? 0 : __libc_realloc(p, n); }
void *memalign(size by, size n) { return refuses() ? 0 : __libc_memalign(by, n); }
void *aligned_alloc(size by, size n) { return memalign(by, n); }
int posix_memalign(void **p, size by, size n) { void *q = memalign(by, n); if (q) *p = q; return q ? 0 : 12; }
"""


def case(test):
    CASES.append(test)
    return test


def library(root):
    """Compiles the library that refuses, with the toolchain."""
    tools = f"{os.path.dirname(os.path.dirname(os.path.realpath(shutil.which('rt') or '')))}/toolchain/bin"
    made = f"{root}/refuses.so"
    write(f"{root}/refuses.c", REFUSES.encode())
    try:
        subprocess.run([f"{tools}/clang", "-O1", "-fPIC", "-c", f"{root}/refuses.c", "-o", f"{root}/refuses.o"], check=True, timeout=100)
        subprocess.run([f"{tools}/ld.lld", "-shared", f"{root}/refuses.o", "-o", made], check=True, timeout=100)
    except OSError as why:
        raise LeftOut("the toolchain's compiler is not there") from why
    return made


class Runs:
    """Runs of a script over a folder, each with less memory than it wants."""

    def __init__(self, library, folder, script, status, printed):
        self.library, self.folder, self.script, self.whole = library, folder, script, (status, printed)

    def run(self, **how):
        """Runs it once, sees that it ends as it must, and returns its status and what it says on standard error."""
        status, printed, said = run(self.folder, stdin=None, input=self.script, **how)
        is_front = status == NO_MEMORY and self.whole[1].startswith(printed)
        if (status, printed) != self.whole and not is_front:
            raise AssertionError(f"it ended with {status}, printed {printed[-300:]} and said {said}, with {how}")
        if said.replace(REFUSED, b"") not in ((b"", NO_THREAD) if status == NO_MEMORY and not printed else (b"",)):
            raise AssertionError(f"it ended with {status} and said {said}, with {how}")
        return status, said

    def refused(self, number):
        """Whether it makes so many requests for memory. That one is refused."""
        return REFUSED in self.run(env={**os.environ, "LD_PRELOAD": self.library, "REFUSED": str(number)})[1]

    def requests(self):
        """How many requests for memory it makes."""
        low, high = 0, 1
        while self.refused(high):
            low, high = high, 2 * high
        while high - low > 1:
            middle = (low + high) // 2
            low, high = (middle, high) if self.refused(middle) else (low, middle)
        return low

    def refuse(self, most):
        """Refuses each of its requests in turn, or so many of them where they are more."""
        count = self.requests()
        numbers = range(1, count + 1) if ALL or count <= most else sorted(RANDOM.sample(range(1, count + 1), most))
        with ThreadPoolExecutor(AT_ONCE) as pool:
            lacking = [number for number, it in zip(numbers, pool.map(self.refused, numbers)) if not it]
        # (which worker does a job differs from run to run, and so does how often its lists grow)
        if lacking and lacking[0] <= count - SPREAD:
            raise AssertionError(f"it makes {count} requests at one time, and not number {lacking[0]} at another")
        print(f"   ({len(numbers)} of {count} requests)")


def small(root):
    """Row by row: three modules, an edit that is felt in two of them, a recheck and a status."""
    script = edit("a.js", b"export type T = string;") + RECHECK + STATUS
    return Runs(library(root), three(f"{root}/d"), script, ERRORS, recheck(3) + done(2, 1, 3, 1) + b"2 status: 1 errors\n" + ERROR)


def example(root):
    """The example, with its script; what it prints with ample memory is what the README shows and other cases compare."""
    with open(f"{TOP}/examples/script", "rb") as file:
        script = file.read()
    status, printed, said = run(f"{TOP}/examples/shop", stdin=None, input=script)
    if (status, said) != (ERRORS, b"") or not printed.startswith(b"recheck 1: 6 parsed, 6 checked, 12 errors\n"):
        raise AssertionError(f"it ended with {status}, printed {printed} and said {said}")
    return Runs(library(root), f"{TOP}/examples/shop", script, status, printed)


@case
def each_request_of_a_small_run_is_refused(root):
    small(root).refuse(EACH)


@case
def requests_of_the_example_are_refused(root):
    example(root).refuse(SAMPLE)


@case
def nothing_is_refused(root):
    """The library alone changes nothing."""
    if small(root).refused(0):
        raise AssertionError("a request of no number was refused")


@case
def an_address_space_that_is_small(root):
    """It grows from what no thread can be started in to what is ample."""
    for runs in (small(root), example(root)):
        ends = set()
        for size in range(STACK, STACK + AMPLE, AMPLE // SIZES):
            ends.add(runs.run(before=["sh", "-c", f'ulimit -v {size}; exec "$@"', "sh"])[0])
        if ends != {NO_MEMORY, runs.whole[0]}:
            raise AssertionError(f"it ended with {ends}")


def main():
    global ALL, RANDOM
    words = argparse.ArgumentParser(usage=__doc__, add_help=False)
    words.add_argument("--all", action="store_true")
    words.add_argument("--seed", default="1")
    words.add_argument("word", nargs="?", default="")
    words = words.parse_args()
    ALL, RANDOM = words.all, random.Random(words.seed)
    sys.argv[1:] = [words.word]
    return real_folders.main()


if __name__ == "__main__":
    go_straight()
    sys.exit(main())
