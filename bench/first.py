#!/usr/bin/env python3
"""Measures `flowd ROOT` on folders of generated modules, beside `cat` over the same files.

    bench/first.py [MODULES ..]        (512 and 1024 where no number is given)

It writes a folder of that many modules with 250 lines each, about 10 kilobytes a module, spread over sub-folders of
64, reads all once so that the cache is warm, and then runs `cat` and `flowd` in turn, fifteen times each. It prints
the shortest times, modules and megabytes a second, the ratio of the two times, and the peak of memory; with two
numbers or more also how the time for each module grows from the first number to the last.
"""

import os
import shutil
import subprocess
import sys
import tempfile
import time

TOP = os.path.dirname(os.path.dirname(os.path.abspath(__file__)))
LINES = 250
FOLDER = 64
RUNS = 15
VALUES = (("number", "12345"), ("string", "\"text\""), ("boolean", "false"))


def module():
    """The text of a module without errors."""
    lines = []
    for line in range(LINES):
        kind, value = VALUES[line % len(VALUES)]
        lines.append(f"export const {kind}{line}: {kind} = {value};\n")
    return "".join(lines)


def write(root, count):
    """Writes a folder of so many modules, and returns their files and the number of their bytes."""
    files, size, text = [], 0, module()
    for number in range(count):
        folder = f"{root}/part{number // FOLDER}"
        os.makedirs(folder, exist_ok=True)
        files.append(f"{folder}/module{number}.js")
        size += len(text)
        with open(files[-1], "w", encoding="ascii") as file:
            file.write(text)
    return files, size


def run(words, out):
    """Runs a program, and returns its seconds, its peak of memory in kilobytes and its status."""
    began = time.perf_counter()
    started = subprocess.Popen(words, stdin=subprocess.DEVNULL, stdout=out)
    _, status, used = os.wait4(started.pid, 0)
    seconds = time.perf_counter() - began
    started.returncode = os.waitstatus_to_exitcode(status)
    return seconds, used.ru_maxrss, started.returncode


def measure(program, count, room):
    """Prints the figures for so many modules, and returns the seconds for each module."""
    root = f"{room}/{count}"
    files, size = write(root, count)
    wanted = f"recheck 1: {count} parsed, {count} checked, 0 errors\n"
    said = subprocess.run([program, root], stdin=subprocess.DEVNULL, capture_output=True, text=True)
    if (said.stdout, said.returncode) != (wanted, 0):
        sys.exit(f"flowd printed {said.stdout!r} with status {said.returncode}, and not {wanted!r} with status 0")
    cats, flowds, peak = [], [], 0
    with open(os.devnull, "wb") as sink:
        for _ in range(RUNS):
            cats.append(run(["cat", *files], sink)[0])
            seconds, memory, _ = run([program, root], sink)
            flowds.append(seconds)
            peak = max(peak, memory)
    cat, flowd = min(cats), min(flowds)
    print(f"{count} modules of {LINES} lines, {size / 1e6:.1f} MB")
    print(f"  cat    {cat * 1000:8.1f} ms")
    print(f"  flowd  {flowd * 1000:8.1f} ms   {count / flowd:8.0f} modules/s   {size / 1e6 / flowd:6.1f} MB/s")
    print(f"  ratio  {flowd / cat:8.2f} times cat")
    print(f"  peak   {peak / 1024:8.1f} MB of memory")
    return flowd / count


def main():
    counts = [int(word) for word in sys.argv[1:]] or [512, 1024]
    if subprocess.run([f"{TOP}/build"]).returncode:
        sys.exit(1)
    program = f"{TOP}/crates/flowd/out/flowd"
    room = tempfile.mkdtemp(prefix="flowd-bench-")
    try:
        each = [measure(program, count, room) for count in counts]
    finally:
        shutil.rmtree(room)
    if len(each) > 1:
        print(f"time for each module from {counts[0]} to {counts[-1]} modules: {each[-1] / each[0]:.2f} times")


if __name__ == "__main__":
    main()
