"""The worked cases of the command, crates/xd_cases, as the scripts beside this file read them.

rt ci compares the program's answers with those that stand there. So a script that wants to know what the program answers
can look here, where there is no built program.
"""
import hashlib
import os
import re
import sys
import typing

ROOT = os.path.dirname(os.path.dirname(os.path.abspath(__file__)))
DIRECTIVE = re.compile(r"(?:(each|every) (prefix|number|fetch|put|room)(?: of (\S+))? )?\$ ?(.*)")


def numbers_changed(text):
    """The text with each of its numbers one up, and one down."""
    for match in re.finditer(rb"\d+", text):
        for changed in (int(match[0]) + 1, max(int(match[0]) - 1, 0)):
            yield text[:match.start()] + b"%d" % changed + text[match.end():]


def varied(files, how, name):
    """The files of each run of a variation."""
    text = files.get(name, b"")
    texts = (text[:end] for end in range(len(text))) if how == "prefix" else numbers_changed(text)
    return [{**files, name: it} for it in texts]


class Run(typing.NamedTuple):
    """A run of a worked case. What is asked and what is answered, and where that stands."""

    words: list
    files: dict
    status: int
    # What is written, where that is shown: all of it, or the first bytes of so many.
    shown: typing.Optional[bytes]
    length: typing.Optional[int]
    # The sink has room for so many bytes, where it has a limit.
    room: typing.Optional[int]
    # A call of the shelf or the sink fails, or takes a part alone.
    is_faulty: bool
    heading: str
    case: str
    number: int
    line: int
    directive: str

    def is_answered_by(self, status, written):
        """Whether this status and these bytes are what is answered."""
        if self.length is not None and (len(written) != self.length or not written.startswith(self.shown)):
            return False
        return status == self.status and (self.shown is None or self.length is not None or written == self.shown)


def answers_of(lines, is_shown):
    """What each run of a directive answered: the status, what is written, and how long that is if it is cut."""
    found = []
    for line in lines:
        status = re.fullmatch(r"status (\d+)(?: x (\d+))?", line)
        if status:
            found.append([int(status[1]), int(status[2] or 1), []])
        elif found:
            found[-1][2].append(line)
    for status, count, shown in found:
        text = "\n".join(line[2:] for line in shown if line[0] == ">").encode(errors="surrogateescape")
        cut = re.fullmatch(r"\.\. (\d+) bytes", shown[-1]) if shown else None
        if shown and not cut and shown[-1] != "no line end":
            text += b"\n"
        yield from [(status, text if is_shown else None, int(cut[1]) if cut else None)] * count


def worked():
    """Each run of the worked cases, a Run; of those in which a call of the shelf or the sink fails in turn, none that no file shows."""
    files, name = {}, None
    heading = case = ""
    number, room, faults = 0, None, {}
    lines = open(f"{ROOT}/crates/xd_cases/stdout", errors="surrogateescape").read().split("\n")
    at = 0
    while at < len(lines):
        line = lines[at]
        at += 1
        if line.startswith("# "):
            heading = line[2:]
        elif line.startswith("case "):
            files, room, faults, case, number = {}, None, {}, line[5:], number + 1
        elif line.startswith("file "):
            _, name, *first = line.split(" ", 2)
            files[name] = "".join(first).encode(errors="surrogateescape")
        elif line.startswith("|"):
            files[name] += (b"\n" if files[name] else b"") + line[2:].encode(errors="surrogateescape")
        elif line.startswith("+ hex "):
            files[name] += bytes.fromhex(line[6:])
        elif line.startswith("+ "):
            count, _, text = line[2:].partition('"')
            files[name] += text.rpartition('"')[0].encode() * int(count or 1)
        elif line.startswith("sink room "):
            room = int(line[10:])
        elif line.startswith(("shelf ", "sink ")):
            of, what, *calls = line.split()
            faults[of, what] = calls
        elif DIRECTIVE.fullmatch(line):
            shown, how, of, words = DIRECTIVE.fullmatch(line).groups()
            end = next(it for it in range(at, len(lines) + 1) if it == len(lines) or not re.match(r"status |> |\.\. |no line end|>", lines[it]))
            found = list(answers_of(lines[at:end], shown != "each"))
            rooms = range(len(found)) if how == "room" else [room] * len(found)
            # (a case may change its files after a run)
            given = varied(dict(files), how, of) if of else [dict(files)] * len(found)
            if len(given) != len(found):
                sys.exit(f".ci/cases.py: {words}: {len(given)} runs and {len(found)} answers")
            for each, its, answer in zip(given, rooms, found):
                yield Run(words.split(), each, *answer, its, any(faults.values()) or how in ("fetch", "put"), heading, case, number, at, line)
            at = end


def runs():
    """Each run of the worked cases whose calls of the outside don't fail in turn: its words, its files, its status, and its output where
    that is shown whole, with a line feed at its end."""
    for it in worked():
        if not it.directive.startswith(("each fetch ", "each put ", "each room ", "every fetch ", "every put ", "every room ")):
            is_whole = it.shown and it.length is None and it.shown.endswith(b"\n")
            yield it.words, it.files, it.status, it.shown.decode(errors="surrogateescape") if is_whole else None


def key(words, text_of):
    """What an answer is found by: the words, each that names a text as the sum of that text."""
    texts = ((word, text_of(word)) for word in words)
    return " ".join(word if text is None else hashlib.sha256(text).hexdigest() for word, text in texts)


def answers():
    """The status and the output of each run that is shown whole. (In those of status 3 and 4 a file or the output fails.)"""
    return {key(words, files.get): [status, output] for words, files, status, output in runs() if output is not None and status not in (3, 4)}
