"""What the scripts beside this file share: how they begin and end, the program, the texts of files,
places and how they are shown."""
import signal

# (at once, so that an end by Ctrl-C is one by the signal, whatever is being read)
signal.signal(signal.SIGINT, signal.SIG_DFL)
import argparse
import difflib
import functools
import gc
import importlib.machinery
import importlib.util
import os
import re
import shutil
import subprocess
import sys
import tempfile
import threading
import time

HERE = os.path.dirname(os.path.realpath(__file__))
SHOWN = 100
# The statuses of the scripts, where they are those of the program.
FAULTS, USAGE, UNREAD, UNWRITTEN, NO_MEMORY, NO, MALFORMED, NO_PROGRAM = 1, 2, 3, 4, 5, 6, 7, 125
STATUSES = {
    FAULTS: "FILE has faults, or something was found",
    USAGE: "the words have no such form",
    UNREAD: "a file can't be read",
    UNWRITTEN: "the output can't be written",
    NO_MEMORY: "there isn't enough memory",
    NO: "the answer is no",
    MALFORMED: "the document is malformed",
    10: "a file is too long",
    NO_PROGRAM: "there is no program xduce to ask",
}


@functools.lru_cache(maxsize=None)
def load(name):
    """A script beside this one, as a module."""
    sys.dont_write_bytecode = True
    loader = importlib.machinery.SourceFileLoader(name.replace("-", "_"), f"{HERE}/{name}")
    module = importlib.util.module_from_spec(importlib.util.spec_from_loader(loader.name, loader))
    loader.exec_module(module)
    return module


# The meaning of types stands there.
types = load("check-proof")


def program():
    """The command: what XDUCE names, the launcher of this repository, or the one on the PATH."""
    launcher = f"{os.path.dirname(HERE)}/xduce"
    is_here = os.access(launcher, os.X_OK)
    named = os.environ.get("XDUCE") or (launcher if is_here else shutil.which("xduce"))
    if not named:
        fail("there is no xduce on the PATH, and XDUCE names none", NO_PROGRAM)
    return named


def ask(*words, timeout=None):
    """The status and the output of the command on these words. Where it takes longer than so many
    seconds, it is ended, and subprocess.TimeoutExpired is raised."""
    named = program()
    try:
        ran = subprocess.run([named, *words], stdout=subprocess.PIPE, timeout=timeout)
    except OSError as error:
        fail(f"{named}: {error.strerror}", NO_PROGRAM)
    if ran.returncode == NO_PROGRAM:
        sys.exit(NO_PROGRAM)
    if ran.returncode < 0:
        fail(f"{named} was ended by signal {-ran.returncode}", NO_PROGRAM)
    return ran.returncode, ran.stdout.decode(errors="replace")


def ask_of_text(command, text, *words, timeout=None):
    """The status and the output of a command about a program that stands in no file."""
    with tempfile.TemporaryDirectory() as folder:
        path = f"{folder}/t.x"
        with open(path, "w", encoding="utf-8", newline="") as file:
            file.write(text)
        return ask(command, path, *words, timeout=timeout)


def ask_within(seconds):
    """What answers commands as ask_of_text does, but for so many seconds in all: what isn't
    answered by then has the status of what there isn't enough memory for."""
    until = time.monotonic() + seconds

    def ask_in_time(command, text, *words):
        try:
            return ask_of_text(command, text, *words, timeout=until - time.monotonic())
        except subprocess.TimeoutExpired:
            return NO_MEMORY, ""

    return ask_in_time


def own_name():
    return os.path.basename(sys.argv[0])


def fail(text, status=USAGE):
    """Ends with a line on standard error."""
    print(f"{own_name()}: {text}", file=sys.stderr)
    sys.exit(status)


def parser(about, statuses=()):
    """What reads a script's words. Its help is the script's own text, without the form of its
    words, and the statuses that it may have."""
    first, _, more = about.partition("\n")
    text = f"{first.partition(': tools/')[0]}\n{more}".rstrip()
    lines = [f"  {status:<4} {STATUSES[status]}" for status in statuses]
    found = argparse.ArgumentParser(
        prog=own_name(),
        description=text,
        formatter_class=argparse.RawDescriptionHelpFormatter,
        epilog="\n".join(["status:", "  0    all is well", *lines]) if lines else None,
        add_help=False,
        allow_abbrev=False,
    )
    found.add_argument("-h", "--help", action="help", help="write this")
    return found


def words(form):
    """The words after the script's name, where there are as many as its form has."""
    if len(sys.argv) != len(form.split()) + 1 or sys.argv[1] in ("-h", "--help"):
        print(f"usage: {own_name()} {form}", file=sys.stderr)
        sys.exit(USAGE)
    return sys.argv[1:]


def read_bytes(name):
    """The bytes of a file; - is standard input."""
    try:
        if name == "-":
            return sys.stdin.buffer.read()
        with open(name, "rb") as file:
            return file.read()
    except (OSError, AttributeError, ValueError):
        print(f"cannot read {name}")
        sys.stdout.flush()
        sys.exit(UNREAD)


def decoded(data):
    """The text of bytes, up to the first that isn't UTF-8."""
    try:
        return data.decode()
    except UnicodeDecodeError as error:
        return data[: error.start].decode()


def read(name):
    """The text of a file; where it isn't UTF-8, up to there."""
    return decoded(read_bytes(name))


def place_of(text, at):
    """The line and the column of a character, both from 1."""
    return text.count("\n", 0, at) + 1, at - text.rfind("\n", 0, at)


def offset_of(text, line, column):
    at = 0
    for _ in range(line - 1):
        at = text.find("\n", at) + 1
    return at + column - 1


def near(word, known, cutoff=0.6, most=3):
    """The names that are like a word."""
    return sorted(difflib.get_close_matches(word, known, most, cutoff))


class Places:
    """Where a file was written that another tool made, by the map that stands beside it (FILE.map),
    or by the one that is named."""

    def __init__(self, made, path=None):
        self.rows = []
        path, is_named = path or f"{made}.map", path is not None
        if made == "-" and not is_named or not is_named and not os.path.exists(path):
            return
        lines = read(path).split("\n")
        if lines[0] != "xduce places 1":
            fail(f"{path}: no map of places", UNREAD)
        name, end = None, None
        folder = os.path.dirname(os.path.abspath(path))
        for line in lines[1:]:
            kind, _, rest = line.partition(" ")
            if kind == "file":
                name = re.sub(r"\\(.)", lambda it: "\n" if it[1] == "n" else it[1], rest)
                name = name if name == "-" else os.path.relpath(os.path.join(folder, name))
            elif kind == "end":
                end = rest
            elif kind:
                self.rows.append((kind, name, rest))
        if made != "-" and end != str(os.path.getsize(made)):
            print(f"{path}: made for another text of {made}", file=sys.stderr)
            self.rows = []

    def of(self, line, column):
        """The file, the line and the column that a place was written at; None where it has none."""
        low, high = 0, len(self.rows)
        while low < high:
            middle = (low + high) // 2
            if pair(self.rows[middle][0]) <= (line, column):
                low = middle + 1
            else:
                high = middle
        if not low:
            return None
        made, name, source = self.rows[low - 1]
        is_copy = source.startswith("= ")
        (begin, from_column), (its_line, its_column) = pair(made), pair(source[2 * is_copy :])
        if not is_copy:
            return name, its_line, its_column
        return (
            name,
            its_line + line - begin,
            its_column + column - from_column if line == begin else column,
        )


def pair(place):
    """The line and the column of a place as it is written."""
    line, _, column = place.partition(":")
    return int(line), int(column)


class Source:
    """A file that messages speak of. Where it was made from others, and there is a map of places,
    messages show the places of those."""

    def __init__(self, name, text, places=None):
        self.name, self.text, self.places, self.others = name, text, Places(name, places), {}

    def text_of(self, name):
        """The text of a file that this one was made from, as far as it can be read."""
        if name not in self.others:
            try:
                with open(name, "rb") as file:
                    self.others[name] = decoded(file.read())
            except OSError:
                self.others[name] = None
        return self.others[name]

    def origin(self, at):
        """The name, the place and the lines to show of an offset, and where it is here if it was
        made elsewhere."""
        line, column = place_of(self.text, at)
        written = self.places.rows and self.places.of(line, column)
        if not written:
            return self.name, (line, column), excerpt(self.text, at), None
        name, *place = written
        text = self.text_of(name)
        lines = text and excerpt(text, min(offset_of(text, *place), len(text)))
        return name, tuple(place), lines, f"at {line}:{column} of {self.name}"

    def place(self, at):
        name, place, _, _ = self.origin(at)
        return "{}:{}:{}".format(name, *place)

    def report(self, at, message, more=(), related=()):
        """Writes a message at a place, what is said beside it, and the other places that matter."""
        name, place, lines, where = self.origin(at)
        print("{}:{}:{}: {}".format(name, *place, message), *filter(None, [lines]), sep="\n")
        for line in more:
            print(f"  = {line}")
        for other, what in related:
            name, place, lines, _ = self.origin(other)
            print("  = {}: {}:{}:{}".format(what, name, *place), *filter(None, [lines]), sep="\n")
        if where:
            print(f"  = {where}")


def shown(name, text, at, message):
    """A message at a place, with the line and a mark under the place. Of a long line the part
    around it is shown."""
    line, column = place_of(text, at)
    return f"{name}:{line}:{column}: {message}\n{excerpt(text, at)}"


def excerpt(text, at):
    """A line, and a mark under a place in it."""
    line, column = place_of(text, at)
    begin = at - column + 1
    end = text.find("\n", at)
    end = len(text) if end < 0 else end
    first = begin if at - begin < SHOWN - 10 else at - SHOWN // 2
    front, last = ".." if first > begin else "", min(end, first + SHOWN)
    source = (front + text[first:last] + (".." if last < end else "")).rstrip("\r")
    margin = " " * len(str(line))
    blanks = re.sub(r"[^\t]", " ", front + text[first:at])
    return f"{margin} |\n{line} | {source}\n{margin} | {blanks}^"


def deep(main, is_ended_by_pipe=True):
    """Runs a script's main with room for types that nest deep, and ends with its status. What can
    go wrong outside of it ends with a line and a status of its own."""
    # (what reads the output may have enough of it, as head does)
    if is_ended_by_pipe:
        signal.signal(signal.SIGPIPE, signal.SIG_DFL)
    for stream in (sys.stdout, sys.stderr):
        if stream is None:
            os._exit(UNWRITTEN)
        stream.reconfigure(encoding="utf-8", errors="surrogateescape")
    # (trees of large texts have no cycles, and to look for some takes longer than to read the texts)
    gc.set_threshold(200_000, 50, 100)
    sys.setrecursionlimit(100_000)
    threading.stack_size(256 * 1024 * 1024)
    ended = []

    def run():
        try:
            ended.append(main() or 0)
            sys.stdout.flush()
        except SystemExit as it:
            ended.append(it.code or 0)
        except OSError as error:
            is_output = error.filename is None
            told = error.strerror if is_output else f"{error.filename}: {error.strerror}"
            told_error(told or str(error))
            ended.append(UNWRITTEN if is_output else UNREAD)
        except (MemoryError, RecursionError):
            told_error("there isn't enough memory")
            ended.append(NO_MEMORY)

    runner = threading.Thread(target=run)
    runner.start()
    runner.join()
    status = ended[0] if ended else 1
    try:
        sys.stdout.flush()
    except OSError as error:
        if status != UNWRITTEN:
            told_error(error.strerror)
        status = UNWRITTEN
    # (what couldn't be written isn't tried again)
    if status == UNWRITTEN:
        os._exit(status)
    sys.exit(status)


def told_error(text):
    try:
        print(f"{own_name()}: {text}", file=sys.stderr, flush=True)
    except OSError:
        pass
