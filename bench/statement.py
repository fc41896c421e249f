#!/usr/bin/env python3
"""Lists the definitions on which the theorem's statement stands: what one must read to believe it.

    bench/statement.py [FILE ..]      from the file of the statement, crates/flowd_top/specs/Run.antt, or from these

A file of specs/ stands on those that its `use` lines name, and on what they stand on. A crate may hand on libraries and files in
its specs/Lib.antt: with `pub use Rattle.B.specs.C` there, `Rattle.A.specs.C` is what C is in B. Each crate has a line with its
files; behind each stand its lines, and in parentheses those that are neither a remark, a `use` line nor empty. What the files
name of the structs and enums of the code stands in src/, and of the library's own definitions in the toolchain.
"""

import functools
import os
import re
import sys

TOP = os.path.dirname(os.path.dirname(os.path.abspath(__file__)))
START = f"{TOP}/crates/flowd_top/specs/Run.antt"
USED = re.compile(r"(?m)^(?:pub )?use Rattle\.(\w+)\.specs\.([\w.]+)")
HANDED_ON = re.compile(r"(?m)^pub use Rattle\.([\w.]+)")


@functools.lru_cache(maxsize=None)
def lines_of(file):
    with open(file, encoding="utf-8") as text:
        return text.read().splitlines()


@functools.lru_cache(maxsize=None)
def handed_on(crate):
    """What stands for each name that a crate hands on: the parts of `A` where that is the library A, and else of `A.specs.NAME`."""
    file = f"{TOP}/crates/{crate}/specs/Lib.antt"
    if not os.path.isfile(file):
        return {}
    return {it.rpartition(".")[2]: it.split(".") for it in HANDED_ON.findall("\n".join(lines_of(file)))}


def file_of(crate, parts):
    """The file of a crate's specs/ that the parts of a name behind `Rattle.CRATE.specs.` stand for, if it is one of this repository."""
    for count in range(len(parts), 0, -1):
        file = f"{TOP}/crates/{crate}/specs/{'/'.join(parts[:count])}.antt"
        if os.path.isfile(file):
            return file
    below = [*handed_on(crate).get("".join(parts[:1]), []), *parts[1:]]
    return file_of(below[0], below[2:]) if below[1:2] == ["specs"] else None


def named(crate, path):
    """The file of a crate's specs/ that a `use` line names, if it is one of this repository."""
    return file_of(crate, path.strip(".").split("."))


def stands_on(starts):
    found, left = set(), list(starts)
    while left:
        file = left.pop()
        if file not in found:
            found.add(file)
            left += filter(None, (named(*it) for it in USED.findall("\n".join(lines_of(file)))))
    return found


def counts(file):
    lines = lines_of(file)
    return len(lines), sum(bool(it.strip()) and not re.match(r"\s*--|(pub )?use ", it) for it in lines)


def by_crate(files):
    crates = {}
    for file in sorted(files):
        crates.setdefault(os.path.relpath(file, f"{TOP}/crates").split("/")[0], []).append(file)
    return crates


def main():
    files = sorted(stands_on([os.path.abspath(it) for it in sys.argv[1:]] or [START]))
    crates, sizes = by_crate(files), {it: counts(it) for it in files}
    for crate, theirs in sorted(crates.items(), key=lambda it: -sum(sizes[file][0] for file in it[1])):
        whole, bare = (sum(sizes[it][at] for it in theirs) for at in (0, 1))
        print(f"{crate:<20}{whole:>6} ({bare})  {', '.join(os.path.basename(it).removesuffix('.antt') + f' {sizes[it][0]}' for it in theirs)}")
    whole, bare = (sum(sizes[it][at] for it in files) for at in (0, 1))
    print(f"{len(files)} files of {len(crates)} crates, {whole} lines ({bare})")


if __name__ == "__main__":
    main()
