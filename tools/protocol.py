"""The Language Server Protocol as bytes: frames and their messages, positions, edits, names of
files. It knows nothing of XDuce.

A message that can't be read is answered here, as the protocol says, and the next one is looked for.
"""
import json
import re
import threading
import urllib.parse

PARSE_ERROR, INVALID_REQUEST, METHOD_NOT_FOUND, INVALID_PARAMS = -32700, -32600, -32601, -32602
INTERNAL_ERROR, NOT_INITIALIZED = -32603, -32002
CONTENT_MODIFIED, CANCELLED, REQUEST_FAILED = -32801, -32800, -32803
# The most bytes of a line of a header and of a message that are kept.
LONGEST_LINE, LONGEST = 4096, 256 * 1024 * 1024
ENCODINGS = ("utf-8", "utf-16", "utf-32")
# What semantic tokens are called here, in the order of their numbers, and what is said of them.
TOKENS = [
    *("type", "function", "parameter", "variable", "keyword"),
    *("string", "comment", "property", "operator"),
]
MODIFIERS = ["declaration", "defaultLibrary"]
LINE_END = re.compile("\r\n|\n|\r")


class Refused(Exception):
    """Why a message isn't answered as it would be: a number of the protocol, and words."""

    def __init__(self, code, text):
        super().__init__(text)
        self.code, self.text = code, text


class Gone(Exception):
    """The client is gone: nothing can be written any more."""


class Connection:
    """The messages that come from a stream of bytes, and those that go to another. What is sent may
    be sent by several threads."""

    def __init__(self, source, sink):
        self.source, self.sink, self.lock = source, sink, threading.Lock()
        self.is_whole = True

    def messages(self):
        """The messages that come, each an object with a method or the answer to a request. Ends
        with the stream; `is_whole` then says whether it ended between two messages."""
        while True:
            try:
                body = self.body()
                if body is None:
                    return
                yield self.message(body)
            except Refused as it:
                self.refuse(None, it)

    def body(self):
        """The bytes of the next message; None at the end."""
        length, is_begun = None, False
        while True:
            line = self.source.readline(LONGEST_LINE)
            if not line.endswith(b"\n") and len(line) < LONGEST_LINE:
                self.is_whole = not (line or is_begun)
                return None
            is_begun = True
            name, colon, value = line.strip().partition(b":")
            if line in (b"\r\n", b"\n"):
                if length is None:
                    raise Refused(PARSE_ERROR, "a message needs the header Content-Length")
                break
            if not colon:
                self.skip()
                raise Refused(PARSE_ERROR, "a line of a header is NAME: VALUE")
            if name.strip().lower() == b"content-length":
                if not re.fullmatch(rb"[0-9]{1,18}", value.strip()):
                    self.skip()
                    raise Refused(PARSE_ERROR, "Content-Length is a number of bytes")
                length = int(value)
        if length > LONGEST:
            while length > 0 and (piece := self.source.read(min(length, 1 << 20))):
                length -= len(piece)
            raise Refused(PARSE_ERROR, "the message is too long")
        body = self.source.read(length)
        if len(body) < length:
            self.is_whole = False
            return None
        return body

    def skip(self):
        """Leaves out the lines up to the end of a header that can't be read."""
        while self.source.readline(LONGEST_LINE) not in (b"", b"\r\n", b"\n"):
            pass

    @staticmethod
    def message(body):
        try:
            found = json.loads(body)
        except (ValueError, RecursionError):
            raise Refused(PARSE_ERROR, "the message isn't JSON") from None
        if not isinstance(found, dict):
            raise Refused(INVALID_REQUEST, "a message is an object")
        if "method" not in found and not ("id" in found and {"result", "error"} & found.keys()):
            raise Refused(INVALID_REQUEST, "a message has a method")
        if not isinstance(found.get("method", ""), str):
            raise Refused(INVALID_REQUEST, "a method is a string")
        if not isinstance(found.get("id", 0), (int, str)):
            raise Refused(INVALID_REQUEST, "an id is a number or a string")
        return found

    def send(self, message):
        """Sends a message; raises Gone where nobody takes it."""
        body = json.dumps({"jsonrpc": "2.0", **message}).encode()
        try:
            with self.lock:
                self.sink.write(b"Content-Length: %d\r\n\r\n%s" % (len(body), body))
                self.sink.flush()
        except (OSError, ValueError):
            raise Gone from None

    def notify(self, method, **params):
        self.send({"method": method, "params": params})

    def answer(self, number, result):
        self.send({"id": number, "result": result})

    def refuse(self, number, it):
        self.send({"id": number, "error": {"code": it.code, "message": it.text}})


def units(text, encoding):
    """How many units of an encoding a text has."""
    if encoding == "utf-32" or text.isascii():
        return len(text)
    if encoding == "utf-8":
        return len(text.encode("utf-8", "surrogatepass"))
    return len(text) + sum(it > "\uffff" for it in text)


class Lines:
    """The lines of a text: from positions of the protocol to offsets, and back."""

    def __init__(self, text, encoding):
        self.text, self.encoding = text, encoding
        self.starts = [0, *(it.end() for it in LINE_END.finditer(text))]

    def end_of(self, line):
        """Where a line ends, without what ends it."""
        start = self.starts[line]
        if line + 1 == len(self.starts):
            return len(self.text)
        end = self.starts[line + 1] - 1
        return end - (end > start and self.text[end - 1 : end + 1] == "\r\n")

    def offset(self, position):
        """The offset of a position. One behind the end of its line is that end, as the protocol
        says; one inside of a character is where that begins."""
        line, column = numbers_of(position)
        if line >= len(self.starts):
            return len(self.text)
        start, end = self.starts[line], self.end_of(line)
        text = self.text[start:end]
        if self.encoding == "utf-32" or text.isascii():
            return min(start + column, end)
        at = 0
        for at, character in enumerate(text):
            column -= units(character, self.encoding)
            if column < 0:
                return start + at
        return end

    def position(self, at):
        low, high = 0, len(self.starts)
        while high - low > 1:
            middle = (low + high) // 2
            if self.starts[middle] <= at:
                low = middle
            else:
                high = middle
        return {
            "line": low,
            "character": units(self.text[self.starts[low] : at], self.encoding),
        }

    def encoded(self, spans):
        """Spans in order, each with two numbers that say what it is, as rows of five numbers: how
        far each begins behind the one before, its length, and what it is. One that goes over lines
        is one for each of them."""
        found, line, before = [], 0, (0, 0)
        for start, end, *kind in spans:
            while line + 1 < len(self.starts) and self.starts[line + 1] <= start:
                line += 1
            last = line
            while start < end:
                stop = min(end, self.end_of(last))
                begin = units(self.text[self.starts[last] : start], self.encoding)
                if stop > start:
                    is_same = last == before[0]
                    column = begin - before[1] if is_same else begin
                    length = units(self.text[start:stop], self.encoding)
                    found += [last - before[0], column, length, *kind]
                    before = last, begin
                last += 1
                start = self.starts[last] if last < len(self.starts) else end
        return found

    def range(self, start, end):
        return {"start": self.position(start), "end": self.position(end)}

    def offsets(self, range_):
        """The offsets of a range, the first one first."""
        if not isinstance(range_, dict):
            raise Refused(INVALID_PARAMS, "a range has a start and an end")
        return sorted(self.offset(range_.get(it)) for it in ("start", "end"))


def numbers_of(position):
    """The line and the character of a position."""
    found = position if isinstance(position, dict) else {}
    line, column = found.get("line"), found.get("character")
    if not (type(line) is type(column) is int and line >= 0 and column >= 0):
        raise Refused(INVALID_PARAMS, "a position has a line and a character, from 0 on")
    return line, column


def edited(lines, changes):
    """A text, by its lines, after changes, one after the other; one without a range is the whole
    new text."""
    if not isinstance(changes, list):
        raise Refused(INVALID_PARAMS, "contentChanges is a list")
    text = lines.text
    for change in changes:
        new = change.get("text") if isinstance(change, dict) else None
        if not isinstance(new, str):
            raise Refused(INVALID_PARAMS, "a change has a text")
        if change.get("range") is None:
            text = new
        else:
            if lines.text is not text:
                lines = Lines(text, lines.encoding)
            start, end = lines.offsets(change["range"])
            text = text[:start] + new + text[end:]
    return text


def path_of(uri):
    """The path that a URI names; None where it names no file."""
    try:
        parts = urllib.parse.urlsplit(uri)
    except ValueError:
        return None
    if parts.scheme != "file":
        return None
    path = urllib.parse.unquote(parts.path, errors="surrogateescape")
    return None if "\0" in path else path


def uri_of(path):
    """The URI of a path, which is from the root on."""
    return "file://" + urllib.parse.quote(path, errors="surrogateescape")
