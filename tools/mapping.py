"""How XML is written as documents of the notation; docs/xml.md is the standard.

A name is a label: each character but a letter or a digit of ASCII is its code in hexadecimal
between two `_`. A prefix of the table and `__` stand before the label of a name in a namespace, and
`__` before that of an attribute.
"""
import os
import re
import shutil
import subprocess
import sys
import urllib.parse

import notation
import shared

XML = "http://www.w3.org/XML/1998/namespace"
BLANKS = " \t\r\n"
PREFIX = r"[A-Za-z][A-Za-z0-9]*"
# So many labels are kept of those that a content has.
MOST_KNOWN = 10_000
LABEL = re.compile(rf"(__)?(?:({PREFIX})__)?((?:[A-Za-z0-9]|_[1-9a-f][0-9a-f]*_)+)", re.A)
START = (
    "A-Z_a-z\xc0-\xd6\xd8-\xf6\xf8-\u02ff\u0370-\u037d\u037f-\u1fff\u200c-\u200d"
    "\u2070-\u218f\u2c00-\u2fef\u3001-\ud7ff"
    "\uf900-\ufdcf\ufdf0-\ufffd\U00010000-\U000effff"
)
NAME = re.compile(f"[{START}][-.0-9\xb7\u0300-\u036f\u203f-\u2040{START}]*")
# What XML 1.0 has no way to write.
NO_CHARACTER = re.compile("[\0-\x08\x0b\x0c\x0e-\x1f\ud800-\udfff\ufffe\uffff]")
TABLE = re.compile(
    rf'\(\*[ \t\r\n]*namespace(?:[ \t\r\n]+({PREFIX}))?[ \t\r\n]+"((?:[^"\\]|\\.)*)"[ \t\r\n]*\*\)',
    re.S,
)
HEAD = re.compile(r"(?:[ \t\r\n]+|\(\*.*?\*\))*", re.S)


class Unmapped(Exception):
    """What can't be mapped, and why."""


def escaped(name):
    return re.sub("[^A-Za-z0-9]", lambda it: f"_{ord(it[0]):x}_", name)


def plain(label):
    """The name that is escaped so."""
    try:
        name = re.sub("_([0-9a-f]+)_", lambda it: chr(int(it[1], 16)), label)
    except (ValueError, OverflowError):
        name = ""
    if escaped(name) != label or not NAME.fullmatch(name):
        raise Unmapped(f"{label} is the label of no name of XML")
    return name


def escaped_text(text):
    """What stands between the quotes of a text."""
    return text.replace("\\", "\\\\").replace('"', '\\"').replace("\n", "\\n").replace("\t", "\\t")


def quoted(text):
    return f'"{escaped_text(text)}"'


def in_comment(text):
    """A text as it stands in a comment of the notation, which `*)` would end."""
    return text.replace("\\", "\\\\").replace("*)", "*\\)")


def moved(line, column, text):
    """The place behind a text that begins at a place."""
    last = text.rfind("\n")
    return line + text.count("\n"), len(text) - last if last >= 0 else column + len(text)


def from_comment(text):
    return re.sub(r"\\(.)", r"\1", text, flags=re.S)


class Table:
    """The prefixes of namespaces. The empty one is the default's: that of names without a
    namespace, where it has no other."""

    def __init__(self, pairs=()):
        self.names, self.prefixes, self.last = {"xml": XML, "": ""}, {XML: "xml", "": ""}, 0
        for prefix, name in pairs:
            self.add(prefix, name)

    def add(self, prefix, name):
        """One more line of the table. A namespace keeps its first prefix, and a prefix its
        namespace; only the empty one is free."""
        if self.names.get(prefix) == name:
            return
        if prefix in self.names and (prefix or self.names[""]):
            raise Unmapped(
                f"the prefix {prefix or 'that is empty'} has two namespaces: {self.names[prefix]} "
                f"and {name}"
            )
        if name in self.prefixes and (name or self.prefixes[""]):
            raise Unmapped(
                f"the namespace {name or 'that is none'} has two prefixes: {self.prefixes[name]} "
                f"and {prefix}"
            )
        if not prefix:
            del self.prefixes[""]
        self.names[prefix], self.prefixes[name] = name, prefix

    def prefix_of(self, name):
        """The prefix of a namespace; one that has none gets n1, n2 and so on."""
        if name not in self.prefixes:
            self.last += 1
            while f"n{self.last}" in self.names:
                self.last += 1
            self.add(f"n{self.last}", name)
        return self.prefixes[name]

    def element(self, name, local):
        prefix = self.prefix_of(name)
        return f"{prefix}__{escaped(local)}" if prefix else escaped(local)

    def attribute(self, name, local):
        return f"__{self.prefix_of(name)}__{escaped(local)}" if name else f"__{escaped(local)}"

    def name_of(self, label):
        """Whether the label is an attribute's, its namespace, and its local name."""
        found = LABEL.fullmatch(label)
        if not found:
            raise Unmapped(f"{label} is the label of no name of XML")
        is_attribute, prefix = bool(found[1]), found[2] or ""
        if prefix not in self.names:
            raise Unmapped(f"the prefix {prefix} of {label} stands in no table of namespaces")
        name = "" if is_attribute and not prefix else self.names[prefix]
        if is_attribute and prefix and not name:
            raise Unmapped(
                f"{label} is the label of no attribute: one without a namespace has no prefix"
            )
        return is_attribute, name, plain(found[3])

    def lines(self):
        """The table, as it stands at the head of types."""
        own = [
            (prefix, name)
            for prefix, name in self.names.items()
            if prefix != "xml" and (prefix or name)
        ]
        return "".join(line_of(prefix, name) + "\n" for prefix, name in own)


def line_of(prefix, name):
    text = quoted(name).replace("*)", "*\\)")
    return f"(* namespace {prefix + ' ' if prefix else ''}{text} *)"


def table_line(comment):
    """The prefix and the namespace that a comment tells, if it is a line of the table."""
    found = TABLE.fullmatch(comment)
    unquoted = lambda text: re.sub(
        r"\\(.)", lambda it: {"n": "\n", "t": "\t"}.get(it[1], it[1]), text, flags=re.S
    )
    return (found[1] or "", unquoted(found[2])) if found else None


def table_of(text):
    """The lines of the table at the head of a program."""
    return [table_line(it[0]) for it in TABLE.finditer(HEAD.match(text)[0])]


def is_attribute(class_):
    """Whether a class of labels is of attributes: all begin with `__`, or all labels but some are
    meant, and `_` is one of these."""
    names, is_except = class_
    return "_" in names if is_except else all(name.startswith("__") for name in names)


class Content:
    """What types tell of the content of an element: whether it is mixed, so that a text may stand
    at each place between its items; whether it has a text; and whether its texts are all named.

    Of several contents that an element may have those count that have the attributes and the
    children that came so far. White space is kept where each of them keeps it: what is left out
    fits a mixed content too, and what is kept fits no other.
    """

    def __init__(self, rules, types):
        self.rules, self.types, self.known = rules, types, {}
        self.is_mixed = all(map(rules.is_mixed, types))
        self.has_text = all(map(rules.has_text, types))
        classes = [it for type_ in types for it in rules.texts(type_)]
        self.is_listed = bool(classes) and not any(map(is_open, classes))
        self.named = {it for names, is_except in classes if not is_except for it in names}
        self.longest = max(map(len, self.named), default=0)

    def text(self, text):
        """A whole text as the types name it: white space around it and between its words doesn't
        count where all texts are named, or where this one is."""
        if not self.named:
            return text
        plain = collapsed(text)
        return plain if self.is_listed or plain in self.named else text

    def may_be_named(self, text):
        """Whether a text, or what begins with it, may be one that is named."""
        return self.is_listed or bool(self.named) and len(collapsed(text)) <= self.longest

    def inside(self, label):
        """What is known of the content where an element with this label stands in it, and the
        content of that element."""
        if label not in self.known:
            if len(self.known) > MOST_KNOWN:
                self.known.clear()
            found, having = {}, []
            for type_ in self.types:
                its = [
                    content
                    for class_, content in self.rules.elements(type_)
                    if shared.types.has(class_, label)
                ]
                found.update(dict.fromkeys(its))
                having += [type_] if its else []
            here = (
                self.rules.content(tuple(having))
                if having and len(having) < len(self.types)
                else self
            )
            self.known[label] = here, self.rules.content(tuple(found))
        return self.known[label]


def collapsed(text):
    """The words of a text, with one space between."""
    return " ".join(re.findall(r"[^ \t\r\n]+", text))


def is_open(class_):
    """Whether a class of texts has other texts than words with one space between."""
    names, is_except = class_
    return is_except or any(" ".join(it.split()) != it for it in names)


class Rules:
    """Which white space the types of a program keep."""

    def __init__(self, text):
        found = notation.definitions(text)
        self.meaning, self.contents, self.reached, self.mixed = (
            shared.types.Meaning(found),
            {},
            {},
            {},
        )
        self.start = Content(self, tuple(("name", name) for name in found if name != "Any"))

    def content(self, types):
        if types not in self.contents:
            self.contents[types] = Content(self, types)
        return self.contents[types]

    def states(self, type_):
        """The types of what may be left of a content, each with whether an element stands right
        before it, or nothing."""
        if type_ not in self.reached:
            found, waiting = {type_: True}, [type_]
            for state in waiting:
                for kind, _, _, rest in self.meaning.heads(state):
                    if rest not in found:
                        waiting.append(rest)
                    found[rest] = found.get(rest, False) or kind == "elem"
            self.reached[type_] = found
        return self.reached[type_]

    def elements(self, type_):
        """The classes of labels that a content has, each with the content of such an element."""
        return dict.fromkeys(
            (class_, content)
            for state in self.states(type_)
            for kind, class_, content, _ in self.meaning.heads(state)
            if kind == "elem"
        )

    def is_mixed(self, type_):
        """Whether a text may stand at each place between the items, and changes nothing of what may
        follow."""
        if type_ not in self.mixed:
            places = [state for state, is_place in self.states(type_).items() if is_place]
            self.mixed[type_] = self.has_text(type_) and all(map(self.takes_text, places))
        return self.mixed[type_]

    def texts(self, type_):
        """The classes of texts that a content has."""
        heads = [head for state in self.states(type_) for head in self.meaning.heads(state)]
        return [class_ for kind, class_, *_ in heads if kind == "text"]

    def has_text(self, type_):
        return bool(self.texts(type_))

    def takes_text(self, state):
        heads = self.meaning.heads(state)
        items = [head for head in heads if head[0] == "elem" and not is_attribute(head[1])]
        rests = [
            rest for kind, class_, _, rest in heads if kind == "text" and class_ == notation.ALL
        ]
        if self.meaning.can_be_empty(state) and not any(map(self.meaning.can_be_empty, rests)):
            return False
        behind = {tuple(head) for rest in rests for head in self.meaning.heads(rest)}
        return all(tuple(head) in behind for head in items)


def local(base, system, public=None):
    """The file here that an identifier of a DTD means, as it stands in the file `base`, or as the
    catalogs of this machine say; None where there is none."""
    if system and not re.match("[A-Za-z][A-Za-z0-9+.-]+:", system):
        path = os.path.join(os.path.dirname(base), urllib.parse.unquote(system))
        if os.path.isfile(path):
            return path
    elif system and system.startswith("file:"):
        path = urllib.parse.unquote(urllib.parse.urlsplit(system).path)
        return path if os.path.isfile(path) else None
    for name in (public, system):
        if name and shutil.which("xmlcatalog") and os.path.exists("/etc/xml/catalog"):
            ran = subprocess.run(
                ["xmlcatalog", "/etc/xml/catalog", name],
                stdout=subprocess.PIPE,
                stderr=subprocess.DEVNULL,
            )
            found = ran.stdout.decode(errors="replace").strip()
            if ran.returncode == 0 and found.startswith(("file:", "/")):
                return local(base, found if found.startswith("file:") else f"file://{found}")
    return None


class Places:
    """Writes a map of places; docs/xml.md has its form."""

    def __init__(self, path):
        try:
            self.file = open(path, "w", encoding="utf-8")
        except OSError as error:
            fail(f"{path}: {error.strerror}", 4)
        self.folder, self.write = os.path.dirname(os.path.abspath(path)), self.file.write
        self.write("xduce places 1\n")

    def name_of(self, source):
        """What comes was made of this file."""
        name = (
            source
            if source == "-" or os.path.isabs(source)
            else os.path.relpath(source, self.folder)
        )
        self.write("file " + name.replace("\\", "\\\\").replace("\n", "\\n") + "\n")

    def end(self, size):
        self.write(f"end {size}\n")
        self.file.close()


# Words of the command line.


def fail(text, status=shared.USAGE):
    shared.fail(text, status)


def with_namespaces(words):
    """The option that gives prefixes of the table."""
    words.add_argument(
        "--namespace",
        metavar="PREFIX=NAME",
        action="append",
        default=[],
        help="a prefix of the table; =NAME the empty one",
    )


def named(given):
    """The lines of the table that the option --namespace gives."""
    for value in given.namespace:
        prefix, equals, name = value.partition("=")
        if not equals or not re.fullmatch(f"({PREFIX})?", prefix):
            fail(f"--namespace {value}: a prefix is letters and digits, and = stands behind it")
        yield prefix, name


def opened(name):
    """A file to read, by bytes; `-` is standard input."""
    try:
        source = open(name, "rb") if name != "-" else open(0, "rb", closefd=False)
        source.peek(1)
        return source
    except OSError as error:
        fail(f"cannot read {name}: {error.strerror}", 3)
