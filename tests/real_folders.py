#!/usr/bin/env python3
"""Runs ./flowd on real folders, and compares its exit status and each byte that it writes.

    tests/real_folders.py [WORD]       (only the cases whose name has this word)

Each case makes a folder of its own, with only what it shows in it. What needs another user is run where this one is
root; what this machine can't make is named and left out. The variable FLOWD names another program in the place of ./flowd,
here and in the other scripts of this folder: so `FLOWD=.flowd/unproved tests/programs.py` tries sources that are not proved
yet. The last line is 'N passed, M failed'.
"""

import contextlib
import os
import shutil
import socket
import subprocess
import sys
import tempfile

TOP = os.path.dirname(os.path.dirname(os.path.abspath(__file__)))
FLOWD = os.path.abspath(os.environ.get("FLOWD", f"{TOP}/flowd"))
USAGE = b"usage: flowd ROOT | --gen N --seed X [--workers N] [--lanes R] [--modules M]\n"
CLEAN, ERRORS, BAD_WORDS, FOLDER_FAULT, SCRIPT_FAULT, SINK_FAULT = 0, 2, 64, 66, 67, 68
GOOD = b"export const x: number = 1;\n"
BAD = b'export const x: number = "a";\n'
MOST_ENTRIES = 1_000_000
MOST_BYTES = 1_073_741_824
CASES = []


class LeftOut(Exception):
    """This machine can't make what the case needs."""


def case(test):
    CASES.append(test)
    return test


def write(path, text=GOOD):
    os.makedirs(os.path.dirname(path), exist_ok=True)
    with open(path, "wb") as file:
        file.write(text)


def recheck(modules, errors=0):
    return b"recheck 1: %d parsed, %d checked, %d errors\n" % (modules, modules, errors)


def run(*words, before=(), **how):
    """Runs ./flowd, and returns its status and all that it wrote."""
    how = {"stdin": subprocess.DEVNULL, "stdout": subprocess.PIPE, "stderr": subprocess.PIPE, "timeout": 300, **how}
    ran = subprocess.run([*before, FLOWD, *words], **how)
    return ran.returncode, ran.stdout, ran.stderr


def expect(given, status, text):
    if given != (status, text, b""):
        raise AssertionError(f"status, output and standard error are {given}, and not {(status, text, b'')}")


def expect_modules(root, modules, errors=0):
    expect(run(root), ERRORS if errors else CLEAN, recheck(modules, errors))


def expect_fault(root):
    expect(run(root), FOLDER_FAULT, b"")


def cannot_read(path):
    return b"recheck cannot read %s, still 0\n" % path


# What is a module.


@case
def an_empty_folder(root):
    expect_modules(root, 0)


@case
def errors_are_counted(root):
    write(f"{root}/a.js", b'export const x: number = "a";\nexport const y: boolean = true;\n')
    write(f"{root}/b.js", b'let y: number = "s";')
    expect_modules(root, 2, 2)


@case
def an_empty_module_and_a_last_line_without_its_end(root):
    write(f"{root}/a.js", b"")
    write(f"{root}/b.js", GOOD.rstrip())
    expect_modules(root, 2)


@case
def sub_folders_are_entered(root):
    for name in ("a.js", "b/a.js", "b/c/a.js", "b/c/d/e/f/g/h/a.js", "x.js/a.js"):
        write(f"{root}/{name}")
    os.makedirs(f"{root}/empty.js/still")
    expect_modules(root, 5)


@case
def other_names_are_no_modules(root):
    for name in ("a.jsx", "a.ts", "a.JS", "js", "a.js.map", "a.js~", "ajs"):
        write(f"{root}/{name}", BAD)
    write(f"{root}/.js")
    write(f"{root}/.hidden.js")
    write(f"{root}/\u00e9\u4e2d\U0001f600 b.js")
    expect_modules(root, 3)


@case
def node_modules_and_hidden_folders_are_not_entered(root):
    for name in ("node_modules/a.js", "b/node_modules/a.js", ".git/a.js", "b/.cache/c/a.js", "..b/a.js"):
        write(f"{root}/{name}", BAD)
    for name in ("node_modules2/a.js", "node_modules.js/a.js", "b/a.js"):
        write(f"{root}/{name}")
    expect_modules(root, 3)


@case
def a_root_of_any_name_is_opened(root):
    for name in ("node_modules", ".hidden"):
        write(f"{root}/{name}/a.js")
        expect_modules(f"{root}/{name}", 1)


@case
def a_file_named_node_modules_is_no_fault(root):
    write(f"{root}/node_modules", BAD)
    write(f"{root}/a.js")
    expect_modules(root, 1)


@case
def symbolic_links_are_not_followed(root):
    write(f"{root}/a.js")
    write(f"{root}/b/c.js")
    os.symlink("a.js", f"{root}/file.js")
    os.symlink("b", f"{root}/folder")
    os.symlink("b", f"{root}/folder.js")
    os.symlink("nowhere.js", f"{root}/broken.js")
    os.symlink("..", f"{root}/b/up")
    os.symlink(".", f"{root}/b/here")
    expect_modules(root, 2)


@case
def a_root_that_is_a_link_is_opened(root):
    write(f"{root}/real/a.js")
    os.symlink("real", f"{root}/link")
    expect_modules(f"{root}/link", 1)


@case
def pipes_and_sockets_are_no_modules(root):
    write(f"{root}/a.js")
    os.mkfifo(f"{root}/pipe.js")
    with contextlib.closing(socket.socket(socket.AF_UNIX)) as made:
        made.bind(f"{root}/socket.js")
        expect_modules(root, 1)


@case
def many_modules_in_many_folders(root):
    for number in range(1000):
        write(f"{root}/d{number % 37}/m{number}.js", BAD if number % 100 == 0 else GOOD)
    expect_modules(root, 1000, 10)


# Names that are faults.


@case
def a_file_whose_name_is_not_utf8(root):
    write(f"{root}/a.js")
    write(os.fsencode(root) + b"/\xff.js")
    expect_fault(root)


@case
def an_entry_of_any_kind_whose_name_is_not_utf8(root):
    for make in (
        lambda path: write(path),
        lambda path: os.mkdir(path),
        lambda path: os.symlink(b"nowhere", path),
        lambda path: os.mkfifo(path),
    ):
        os.makedirs(f"{root}/b", exist_ok=True)
        make(os.fsencode(root) + b"/b/x\xc3\x28")
        expect_fault(root)
        shutil.rmtree(f"{root}/b")


@case
def names_that_are_not_utf8_in_folders_that_are_not_entered(root):
    write(os.fsencode(root) + b"/node_modules/\xff.js")
    write(os.fsencode(root) + b"/.git/\xff.js")
    write(f"{root}/a.js")
    expect_modules(root, 1)


@case
def control_characters_in_the_path_of_a_module(root):
    for name in ("a\n.js", "\t.js", "b\x1f/a.js", "b/\x01/a.js"):
        write(f"{root}/{name}")
        expect_fault(root)
        shutil.rmtree(root)
        os.mkdir(root)
    write(f"{root}/a\x7f.js")
    expect_modules(root, 1)


@case
def control_characters_where_no_module_is(root):
    write(f"{root}/a\n.txt")
    os.makedirs(f"{root}/b\n/c")
    write(f"{root}/a.js")
    expect_modules(root, 1)


@case
def the_length_of_a_path(root):
    folder = "/".join(["x" * 200] * 5)
    name = "y" * (1024 - len(folder) - len("/.js")) + ".js"
    os.makedirs(f"{root}/{folder}")
    write(f"{root}/{folder}/{name}")
    expect_modules(root, 1)
    write(f"{root}/{folder}/z{name}")
    expect_fault(root)


# Limits.


@case
def a_file_that_is_too_large(root):
    write(f"{root}/a.js")
    write(f"{root}/b.js", b"")
    os.truncate(f"{root}/b.js", MOST_BYTES + 1)
    expect(run(root), CLEAN, cannot_read(b"b.js"))


@case
def a_large_file_that_is_no_module(root):
    write(f"{root}/a.js")
    write(f"{root}/b.txt", b"")
    os.truncate(f"{root}/b.txt", MOST_BYTES + 1)
    expect_modules(root, 1)


@contextlib.contextmanager
def room_for_many(root):
    """A folder for many files: in memory where this machine has such a place, since a disk takes long."""
    for place in ("/dev/shm", root):
        if os.access(place, os.W_OK) and os.statvfs(place).f_favail > MOST_ENTRIES + 1000:
            with tempfile.TemporaryDirectory(dir=place, prefix="flowd-entries-") as room:
                yield room
            return
    raise LeftOut("too few files can be made here")


@case
def the_number_of_entries(root):
    with room_for_many(root) as room:
        write(f"{room}/a.js")
        os.mkdir(f"{room}/b")
        folder = os.open(f"{room}/b", os.O_RDONLY)
        try:
            for number in range(MOST_ENTRIES - 2):
                # A file has at most some 65,000 names on some disks.
                if number % 50_000 == 0:
                    source = str(number)
                    os.mknod(source, dir_fd=folder)
                else:
                    os.link(source, str(number), src_dir_fd=folder, dst_dir_fd=folder)
            expect_modules(room, 1)
            os.mknod("more", dir_fd=folder)
            expect_fault(room)
        finally:
            os.close(folder)


# Folders that can't be had.


@case
def a_root_that_is_not_there(root):
    expect_fault(f"{root}/nowhere")
    expect_fault(f"{root}/no/where")
    os.symlink("nowhere", f"{root}/broken")
    expect_fault(f"{root}/broken")


@case
def a_root_that_is_a_file(root):
    write(f"{root}/a.js")
    expect_fault(f"{root}/a.js")
    expect_fault(f"{root}/a.js/")
    expect_fault("/dev/null")


@case
def a_root_that_is_too_long(root):
    expect_fault(f"{root}/{'x' * 300}")
    expect_fault(f"{root}/{'x/' * 3000}")


def as_another_user():
    """The words that run a program as a user who owns nothing here; none where this user isn't root."""
    if os.geteuid():
        return []
    words = ["setpriv", "--reuid=65534", "--regid=65534", "--clear-groups"]
    try:
        if subprocess.run([*words, FLOWD], capture_output=True).returncode == BAD_WORDS:
            return words
    except OSError:
        pass
    raise LeftOut("as root, no program can be run as another user here")


def expect_unreadable(root, path, mode, status=FOLDER_FAULT, text=b""):
    before = as_another_user()
    mode, was = mode, os.stat(path).st_mode
    os.chmod(path, mode)
    try:
        expect(run(root, before=before), status, text)
    finally:
        os.chmod(path, was)
    expect(run(root, before=before), CLEAN, recheck(2))


@case
def a_root_that_may_not_be_read(root):
    write(f"{root}/r/a.js")
    write(f"{root}/r/b/a.js")
    expect_unreadable(f"{root}/r", f"{root}/r", 0o300)
    expect_unreadable(f"{root}/r", f"{root}/r", 0)


@case
def a_sub_folder_that_may_not_be_read(root):
    write(f"{root}/a.js")
    write(f"{root}/b/a.js")
    expect_unreadable(root, f"{root}/b", 0o311)


@case
def a_module_that_may_not_be_read(root):
    write(f"{root}/a.js")
    write(f"{root}/b.js")
    expect_unreadable(root, f"{root}/b.js", 0o200, CLEAN, cannot_read(b"b.js"))


# Words.


@case
def words_of_no_command(root):
    for words in (
        [],
        [""],
        ["-"],
        ["--"],
        ["-x"],
        ["--help"],
        ["-h"],
        ["--version"],
        [root, root],
        [root, ""],
        ["", root],
        [root, "--"],
        ["--", root],
        ["-", root],
        [b"\xff"],
        [os.fsencode(root) + b"/\xff"],
        [root, b"\xff"],
        ["x"] * 1000,
    ):
        expect(run(*words), BAD_WORDS, USAGE)


@case
def a_root_of_any_form(root):
    write(f"{root}/d/a.js")
    os.mkdir(f"{root}/d/-d")
    write(f"{root}/d/-d/b.js")
    for word in ("d", "./d", "d/", "d//", "d/.", f"{root}/d", f"../{os.path.basename(root)}/d", "d/-d/.."):
        expect(run(word, cwd=root), CLEAN, recheck(2))
    expect(run(".", cwd=f"{root}/d"), CLEAN, recheck(2))
    expect(run("./-d", cwd=f"{root}/d"), CLEAN, recheck(1))
    expect(run(" ", cwd=root), FOLDER_FAULT, b"")


# Streams.


def into(target, *words):
    """Runs ./flowd with standard output at an open file, which is closed then."""
    with target as out:
        return run(*words, stdout=out)


def broken_pipe():
    reading, writing = os.pipe()
    os.close(reading)
    return os.fdopen(writing, "wb")


@case
def a_broken_pipe(root):
    write(f"{root}/a.js")
    for words in ([root], [], ["a", "b"]):
        status, _, complained = into(broken_pipe(), *words)
        expect((status, b"", complained), SINK_FAULT, b"")


@case
def a_full_device(root):
    if not os.path.exists("/dev/full"):
        raise LeftOut("there is no /dev/full")
    write(f"{root}/a.js")
    for words in ([root], []):
        status, _, complained = into(open("/dev/full", "wb"), *words)
        expect((status, b"", complained), SINK_FAULT, b"")


@case
def a_closed_standard_output(root):
    write(f"{root}/a.js")
    for words in ([root], []):
        expect(run(*words, before=["sh", "-c", 'exec "$@" >&-', "sh"]), SINK_FAULT, b"")


@case
def a_closed_standard_input(root):
    write(f"{root}/a.js")
    expect(run(root, before=["sh", "-c", 'exec "$@" <&-', "sh"]), SCRIPT_FAULT, recheck(1))


def tried(test, room):
    """Runs a case in a folder of its own, says what comes of it, and returns whether it passed, or None."""
    name = test.__name__.replace("_", " ")
    root = f"{room}/{test.__name__[:40]}"
    os.mkdir(root)
    try:
        test(root)
    except LeftOut as why:
        print(f"left out: {name}: {why}", flush=True)
        return None
    except (AssertionError, OSError, subprocess.SubprocessError) as why:
        print(f"FAILED: {name}: {why}", flush=True)
        return False
    finally:
        shutil.rmtree(root, ignore_errors=True)
    print(f"ok: {name}", flush=True)
    return True


def build():
    """Where the program isn't built, the first run builds it and says so."""
    subprocess.run([FLOWD], stdin=subprocess.DEVNULL, stdout=subprocess.DEVNULL)


def go_straight():
    """Starts a script with many runs again, with what ./flowd runs in its place: it looks each time whether a source is newer."""
    if "FLOWD" in os.environ:
        return
    build()
    with tempfile.TemporaryDirectory(prefix="flowd-tests-") as room:
        with subprocess.Popen([FLOWD, room], stdin=subprocess.PIPE, stdout=subprocess.PIPE, stderr=subprocess.DEVNULL) as running:
            running.stdout.readline()
            found = os.readlink(f"/proc/{running.pid}/exe")
    os.execve(sys.executable, [sys.executable, *sys.argv], {**os.environ, "FLOWD": found})


def main():
    build()
    word = sys.argv[1] if len(sys.argv) > 1 else ""
    with tempfile.TemporaryDirectory(prefix="flowd-tests-") as room:
        os.chmod(room, 0o755)
        ended = [tried(test, room) for test in CASES if word in test.__name__.replace("_", " ")]
    passed, failed = ended.count(True), ended.count(False)
    print(f"{passed} passed, {failed} failed")
    return 1 if failed or not passed else 0


if __name__ == "__main__":
    sys.exit(main())
