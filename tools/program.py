"""What makes the program, where programs stand and what is said of each.

A program stands in a folder with a stamp beside it, which the launcher reads too. That has `sum`, a
sum of the code that the program was made of, `folders`, where that code stands in crates/,
`program`, the program's own sum, `kit`, what built it, and `how`, what `./xduce version` says of
it. `proved` is a sum of all that was proved, where it was proved here. The stamp's time is that at
which the code was last seen to have the first sum.

What is shipped stands in dist/, packed, with a line in dist/programs.txt: the file, the sum of the
code that it was made of, the sum of the program, and the kit that it was proved with.
"""
import collections
import fcntl
import hashlib
import os
import platform
import re
import shlex
import shutil
import subprocess
import sys

ROOT = os.path.dirname(os.path.dirname(os.path.realpath(__file__)))
CRATES, DIST = f"{ROOT}/crates", f"{ROOT}/dist"
OUT = f"{CRATES}/xduce/out"
LIST = f"{DIST}/programs.txt"
# Each program that is shipped, and its crate.
PROGRAMS = {"xduce": "xduce", "xduce-validate": "xduce_validate"}
ANEW = ".ci/run or ./xduce prove builds it anew"
# What makes the program, and what is claimed of it and proves that.
MAKES, PROVES = ("src",), ("specs", "proofs")

Shipped = collections.namedtuple("Shipped", "file code program kit")


class Unusable(Exception):
    """Why a shipped program can't be used."""


def say(text):
    print(f"xduce: {text}", file=sys.stderr, flush=True)


def fail(text):
    say(text)
    sys.exit(125)


def version():
    with open(f"{ROOT}/VERSION") as file:
        return file.read().strip()


def kit_here():
    """The kit whose rt is on the PATH, in its own words."""
    if not shutil.which("rt"):
        return ""
    return subprocess.run(["rt", "version"], stdout=subprocess.PIPE, text=True).stdout.strip()


def crates_below(name):
    """Each crate that this one stands on, with those that it names and its line in crates.txt.
    The lowest come first, and the crate itself last."""
    below, said, found = {}, {}, {}
    with open(f"{ROOT}/crates.txt") as lines:
        for line in lines:
            names, colon, uses = line.partition("#")[0].partition(":")
            if colon:
                crate = names.split()[0]
                below[crate], said[crate] = uses.split(), line.strip()

    def visit(name):
        if name in below and name not in found:
            for use in below[name]:
                visit(use)
            found[name] = [use for use in below[name] if use in below]

    visit(name)
    return found, {crate: said[crate] for crate in found}


def files_of(top, crate, parts):
    for part in parts:
        for folder, folders, names in os.walk(f"{top}/{crate}/{part}"):
            folders.sort()
            for name in sorted(names):
                if name.endswith((".rt", ".antt")):
                    yield f"{folder}/{name}"


def sum_of(top, lines, parts=MAKES):
    """A sum of the code of these crates, or of more of them, and of their lines in crates.txt."""
    found = hashlib.sha256(repr(lines).encode())
    for crate in lines:
        for path in files_of(top, crate, parts):
            with open(path, "rb") as file:
                found.update(repr((os.path.relpath(path, top), file.read())).encode())
    return found.hexdigest()


def sum_of_file(path):
    with open(path, "rb") as file:
        return hashlib.sha256(file.read()).hexdigest()


def stamp_of(place):
    """What the stamp of a folder says, where its program stands there."""
    try:
        with open(f"{place}/xduce.built") as file:
            lines = dict(line.rstrip("\n").partition("=")[::2] for line in file)
        said = {name: "".join(shlex.split(text)) for name, text in lines.items()}
        return said if said.get("program") == sum_of_file(f"{place}/xduce") else {}
    except (OSError, ValueError):
        return {}


def put_stamp(place, code, lines, kit, how, begun, proved=""):
    """Says of what a program was made. What is edited after this time is newer."""
    folders = [f"{crate}/{part}" for crate in lines for part in MAKES]
    said = {
        "sum": code,
        "folders": " ".join(it for it in folders if os.path.isdir(f"{CRATES}/{it}")),
        "program": sum_of_file(f"{place}/xduce"),
        "kit": kit,
        "how": how,
        "proved": proved,
    }
    new = f"{place}/xduce.built.{os.getpid()}"
    with open(new, "w") as file:
        file.writelines(f"{name}={shlex.quote(text)}\n" for name, text in said.items())
    os.utime(new, (begun, begun))
    os.replace(new, f"{place}/xduce.built")


def put_program(place, data):
    """Puts a program into a folder, whole or not at all."""
    os.makedirs(place, exist_ok=True)
    new = f"{place}/xduce.{os.getpid()}"
    try:
        with open(new, "wb") as file:
            file.write(data)
        os.chmod(new, 0o755)
        os.replace(new, f"{place}/xduce")
    except OSError:
        if os.path.exists(new):
            os.remove(new)
        raise


def hold(folders):
    """Waits until nobody else has these folders, and keeps others out until this call ends."""
    held = [os.open(folder, os.O_RDONLY) for folder in folders]
    has_waited = False
    for file in held:
        try:
            fcntl.flock(file, fcntl.LOCK_EX | fcntl.LOCK_NB)
        except BlockingIOError:
            if not has_waited:
                say("another call builds the program, or rt runs here: waiting for it")
            has_waited = True
            fcntl.flock(file, fcntl.LOCK_EX)
        except OSError:
            pass  # some file systems have no locks
    return held


def all_shipped():
    """Each line of dist/programs.txt."""
    if not os.path.exists(LIST):
        return []
    with open(LIST, errors="replace") as file:
        rows = [line.split(None, 3) for line in file if line.strip() and line[0] != "#"]
    wrong = [row for row in rows if len(row) != 4]
    if wrong:
        raise Unusable(f"{LIST} has a line of no form: {' '.join(wrong[0]).strip()}")
    return [Shipped(*row[:3], row[3].strip()) for row in rows]


def file_form(name, machine=None):
    """What the names of a program's packed files match, of any version."""
    return re.compile(rf"{re.escape(name)}-\d[\w.]*-{machine or platform.machine()}\.xz")


def shipped(name, machine=None):
    """What is shipped of a program for a machine, or None."""
    form = file_form(name, machine)
    return next((it for it in all_shipped() if form.fullmatch(it.file)), None)


def unpacked(line):
    """The program of a line of dist/programs.txt."""
    path = f"{DIST}/{line.file}"
    try:
        with open(path, "rb") as file:
            packed = file.read()
    except OSError as error:
        raise Unusable(f"{path}: {error.strerror}")
    try:
        import lzma

        data = lzma.decompress(packed)
    except ImportError:
        # (some Pythons are built without it)
        if not shutil.which("xz"):
            raise Unusable(f"unpacking {path} needs Python's lzma, or xz")
        how = {"stdout": subprocess.PIPE, "stderr": subprocess.DEVNULL}
        data = subprocess.run(["xz", "-dc"], input=packed, **how).stdout
    except lzma.LZMAError:
        data = b""
    if hashlib.sha256(data).hexdigest() != line.program:
        raise Unusable(f"{path} is damaged: it isn't the program that dist/programs.txt names")
    return data


def not_of_gate(crate, lines):
    """Why the program that rt ci left in a crate isn't one of this code, or None. (It has no stamp.
    It is newer than all that it was made of.)"""
    path = f"{CRATES}/{crate}/out/{crate}"
    if not os.path.isfile(path):
        return f"{path} isn't there: .ci/run or ./xduce prove builds it"
    if not os.path.isfile(f"{path}.by-rattle"):
        return f"nothing says that {path} is proved: {ANEW}"
    files = [it for crate in lines for it in files_of(CRATES, crate, MAKES + PROVES)]
    for it in [f"{ROOT}/crates.txt", *files]:
        if os.stat(it).st_ctime > os.stat(path).st_mtime:
            return f"{os.path.relpath(it, ROOT)} is newer than {path}: {ANEW}"
    return None


def program_of(name, machine=platform.machine()):
    """A program of the code that stands here, and what is said of it: the one that dist/ ships for
    a machine, else the one that rt ci left. None where there is neither."""
    crate = PROGRAMS[name]
    _, lines = crates_below(crate)
    line = shipped(name, machine)
    if line and line.code == sum_of(CRATES, lines):
        return unpacked(line), f"proved with {line.kit}"
    if machine != platform.machine() or not_of_gate(crate, lines):
        return None
    with open(f"{CRATES}/{crate}/out/{crate}", "rb") as file:
        return file.read(), "proved and built here"
