#!/usr/bin/env python3
"""Runs ./flowd with one worker and with many, and compares each byte that it writes.

    tests/workers.py [WORD]       (only the cases whose name has this word)

The last line is 'N passed, M failed'.
"""

import os
import resource
import subprocess
import sys

HERE = os.path.dirname(os.path.abspath(__file__))
sys.path[:0] = [HERE, f"{os.path.dirname(HERE)}/bench"]
import real_folders
from hostile import ARENA, ERRORS, RECHECK, STACK, STATUS, command, cut
from modules import Draws
from real_folders import CLEAN, FLOWD, write

WORKERS = (1, 4, 64)
PATIENCE = 300  # seconds
CASES = real_folders.CASES = []


def case(test):
    CASES.append(test)
    return test


def edit(path, text):
    return command(do="edit", path=path, text=text)


def recheck(version, parsed, checked, errors):
    return f"recheck {version}: {parsed} parsed, {checked} checked, {errors} errors\n"


def run(words, script=b"", most=None):
    """Runs ./flowd, in so many bytes of addresses at the most, and returns its status and all that it wrote."""
    limit = None if most is None else lambda: resource.setrlimit(resource.RLIMIT_AS, (most, most))
    ran = subprocess.run([FLOWD, *words], input=script, stdout=subprocess.PIPE, stderr=subprocess.STDOUT, timeout=PATIENCE, preexec_fn=limit)
    return ran.returncode, ran.stdout


def brief(told):
    status, text = told
    return f"status {status} and {text if len(text) < 1000 else text[:500] + b' .. ' + text[-500:]}"


def expect(told, wanted, how):
    if told != wanted:
        raise AssertionError(f"{how}: {brief(told)}, and not {brief(wanted)}")


# Types that are half a million levels deep: each thread that walks one has a stack as large as that of the program's first one.

DEPTH, IMPORTERS = 500_000, 10
DEEP = "[]" * DEPTH
USES = "import {x} from './deep';\nimport {w} from './other';\nexport {x as y} from './deep';\nlet z = x;\nz = w;\nconst n: number = z;\n"


def told_status(version, leaf):
    """Each importer has an error where its last line takes the deep value as a number."""
    shown = cut("Array<" * DEPTH + leaf + ">" * DEPTH)
    names = sorted(f"m{i}.js" for i in range(IMPORTERS))
    return f"{version} status: {IMPORTERS} errors\n" + "".join(f"  {name}:6:19 incompatible-type {shown} number\n" for name in names)


@case
def types_that_are_deep(root):
    """They are exported and imported, merged, compared and let go: in the load, where an edit changes no type, and where what lies deepest
    changes."""
    sources = {leaf: {"deep.js": f"export const x: {leaf}{DEEP} = [];\n", "other.js": f"export const w: {leaf}{DEEP} = [];\n"} for leaf in ("number", "string")}
    for name, text in {**sources["number"], **{f"m{i}.js": USES for i in range(IMPORTERS)}}.items():
        write(f"{root}/d/{name}", text.encode())
    script = STATUS + edit("deep.js", sources["number"]["deep.js"] + "// the same signature\n") + RECHECK
    script += b"".join(edit(*it) for it in sources["string"].items()) + RECHECK + STATUS
    text = recheck(1, IMPORTERS + 2, IMPORTERS + 2, IMPORTERS) + told_status(1, "number") + recheck(2, 1, 1, IMPORTERS)
    text += recheck(3, 2, IMPORTERS + 2, IMPORTERS) + told_status(3, "string")
    for workers in WORKERS:
        expect(run(["--workers", str(workers), f"{root}/d"], script), (ERRORS, text.encode()), f"{workers} workers")


# The generator's run.

SEED, MODULES, ROUNDS = 1, 300, 10


def generated(count, seed):
    """What the generator's run prints: an edit of a type checks the module and each one whose type leads to it, another one the module."""
    draws = Draws(seed)
    leads = [None] + [draws.below(i) for i in range(1, count)]
    yield recheck(1, count, count, 0)
    wide = set()
    for n in range(1, ROUNDS + 1):
        edited = draws.below(count)
        is_wide = n in (3, 6, 9)
        reach = {edited}
        if is_wide != (edited in wide):
            wide ^= {edited}
            for i in range(edited + 1, count):
                if leads[i] in reach:
                    reach.add(i)
        yield recheck(n + 1, 1, len(reach), 0)
    yield f"generated {count} modules\n"


@case
def the_run_of_the_generator(root):
    wanted = CLEAN, "".join(generated(MODULES, SEED)).encode()
    for workers in WORKERS:
        expect(run(["--gen", str(MODULES), "--seed", str(SEED), "--workers", str(workers)]), wanted, f"{workers} workers")


# Many modules in few waves, with errors in each.

LAYERS, WIDTH = 6, 48


def layered():
    """The modules of a layer import three of the layer before it; each has an error, and every seventh one imports its neighbour, which
    imports it."""
    for layer in range(LAYERS):
        for i in range(WIDTH):
            lines = [f"import {{v as v{n}}} from './l{layer - 1}_{(i * 7 + n) % WIDTH}';" for n in range(3) if layer]
            if i % 7 < 2:
                lines.append(f"import type {{T as Other}} from './l{layer}_{i + 1 if i % 7 == 0 else i - 1}';")
            lines.append(f"export type T = {{a: number, b: ?{'Other' if i % 7 < 2 else 'string'}}};")
            lines.append(f"export const v: Array<number> = [{layer}];")
            lines += [f"const s{n}: string = v{n}[0];" for n in range(3) if layer]
            lines.append("const t: T = 1;")
            yield f"l{layer}_{i}.js", "".join(f"{it}\n" for it in lines)


LAYERED = dict(layered())
CHANGES = [
    (name, text.replace("Array<number> = [", 'Array<string> = ["a", ')) for name, text in LAYERED.items() if name.startswith(("l0_1", "l2_3", "l5_"))
]


def layered_script():
    """Edits by ones and all at once, and stops at each poll."""
    script = STATUS
    for name, text in CHANGES[:4]:
        script += edit(name, text) + RECHECK + STATUS
    script += b"".join(edit(name, text) for name, text in CHANGES)
    script += b"".join(command(do="recheck", stop=poll) for poll in range(1, 16))
    script += STATUS + RECHECK + STATUS
    return script + b"".join(command(do="delete", path=name) for name, _ in CHANGES[::3]) + RECHECK + STATUS


@case
def many_modules_in_few_waves(root):
    for name, text in LAYERED.items():
        write(f"{root}/d/{name}", text.encode())
    wanted = run(["--workers", "1", f"{root}/d"], layered_script())
    if wanted[0] != ERRORS or not wanted[1].startswith(recheck(1, LAYERS * WIDTH, LAYERS * WIDTH, LAYERS * WIDTH + 3 * (LAYERS - 1) * WIDTH).encode()):
        raise AssertionError(f"1 worker: {brief(wanted)}")
    for workers in (2, 3, 4, 7, 64):
        expect(run(["--workers", str(workers), f"{root}/d"], layered_script()), wanted, f"{workers} workers")
    expect(run([f"{root}/d"], layered_script()), wanted, "as many workers as there are by themselves")


@case
def threads_that_cannot_be_started(root):
    """Where there are no addresses for their stacks, the work is done without them."""
    for name, text in LAYERED.items():
        write(f"{root}/d/{name}", text.encode())
    script = layered_script()
    wanted = run(["--workers", "1", f"{root}/d"], script)
    for stacks in (1, 2, 3):
        told = run(["--workers", "64", f"{root}/d"], script, stacks * (STACK + ARENA) + STACK // 2)
        expect(told, wanted, f"addresses for {stacks} stacks")


if __name__ == "__main__":
    sys.exit(real_folders.main())
