"""What a language server answers about one version of a text: a program or a document.

All that is said stands on notation.Parsed and on what the program answers. Offsets become positions
of the protocol by the lines of the text. Each answer is as the protocol shapes it, without its
frame.
"""
import fnmatch
import functools
import os
import re
import threading

import actions
import completion
import hints
import layout
import notation
import protocol
import questions
import shared
import shown
from protocol import REQUEST_FAILED, TOKENS, Refused

lint, where, format_ = shared.load("lint"), shared.load("where"), shared.load("format")
ERROR, WARNING, INFORMATION, HINT = 1, 2, 3, 4
UNNECESSARY = 1
# The numbers of the protocol for what a completion and a symbol are.
ITEM_KINDS = {"function": 3, "variable": 6, "parameter": 6, "type": 22, "label": 5, "keyword": 14}
SYMBOL_KINDS = {"type": 23, "function": 12, "element": 8}
PREFIX = re.compile(rf"(?:{notation.WORD})?\Z")
BEGIN = re.compile(r"^(?:type|fun)\b", re.M)
TYPED = re.compile(r"\s*\(\*\s*xduce:\s+(\S.*?)\s+([A-Za-z_]\w*)\s*\*\)")
MOST_LINES, MOST_TEXT = 30, 300
# What tools/lint finds is looked for in programs of so many characters.
MOST_LINTED = 200_000
# How many files and symbols are looked at for a question about a whole folder, and their bytes.
MOST_FILES, MOST_SYMBOLS, MOST_READ = 300, 1000, 1024 * 1024
# Labels of a program that are told where nothing more is known.
LABEL = re.compile(rf"({notation.WORD})\[")


@functools.lru_cache(None)
def page():
    """The path of docs/reading-answers.md, and of each fault and warning the section of it."""
    for folder in ("../docs", "../../doc/xduce/docs"):
        path = os.path.normpath(f"{shared.HERE}/{folder}/reading-answers.md")
        if os.path.isfile(path):
            with open(path, encoding="utf-8") as file:
                found = re.findall(r"^##+ (((?:Fault|Warning) \d+): .*)$", file.read(), re.M)
            return path, {
                number.lower(): re.sub(r"[^\w -]", "", title.lower()).replace(" ", "-")
                for title, number in found
            }
    return None, {}


def section_of(message):
    """The URI of the section that explains a fault or a warning; None where there is no such page.
    """
    path, sections = page()
    section = sections.get(":".join(message.split(":")[:1]))
    return f"{protocol.uri_of(path)}#{section}" if section else None


def shortened(text, most=MOST_TEXT):
    return text if len(text) <= most else f"{text[:most]} .."


def first_lines(text):
    """A text with so many lines as can be looked at."""
    lines = text.rstrip("\n").split("\n")
    more = [f"(* {len(lines) - MOST_LINES} lines more *)"] if len(lines) > MOST_LINES else []
    return "\n".join(shortened(it, 1000) for it in [*lines[:MOST_LINES], *more])


class Text:
    """One version of a text that a client has open."""

    is_program, typed = False, None

    def __init__(self, uri, version, text, client, older=None):
        self.uri, self.version, self.text, self.client = uri, version, text, client
        # The last version before this one that was read, as long as this one isn't.
        self.older = older if older is None or older.is_read else older.older
        self.path, self.lock = protocol.path_of(uri), threading.RLock()
        # What was told last of this text, for hovers and code actions; None where nothing was yet.
        self.told = None

    @functools.cached_property
    def lines(self):
        return protocol.Lines(self.text, self.client.encoding)

    def read(self):
        return notation.Parsed(self.text)

    @property
    def parsed(self):
        """The text as it is read, once."""
        with self.lock:
            if not self.is_read:
                self._parsed = self.read()
                self.older = None
            return self._parsed

    @property
    def is_read(self):
        return "_parsed" in self.__dict__

    @property
    def read_before(self):
        """This version where it was read, else the last one that was: for what needn't be quite
        right while one types."""
        older = self.older
        return self if self.is_read or older is None else older

    @property
    def tokens(self):
        return self.parsed.tokens

    def token_range(self, index):
        return self.lines.range(self.tokens.starts[index], self.tokens.ends[index])

    def node_range(self, node):
        return self.lines.range(*self.parsed.range(node))

    def location(self, index):
        return {"uri": self.uri, "range": self.token_range(index)}

    def touched(self, at):
        """The token at an offset; between two, a word before it rather than what follows it."""
        index = self.tokens.index_at(at)
        is_behind = index and self.tokens.ends[index - 1] == at
        word = ("word", "label", *notation.KEYWORDS)
        if is_behind and (
            self.tokens.kinds[index] not in word or self.tokens.starts[index] > at
        ):
            return index - 1
        return index

    def diagnostic(self, start, end, severity, message, **more):
        return {
            "range": self.lines.range(start, end),
            "severity": severity,
            "source": "xduce",
            "message": message,
            **more,
        }

    def late(self, message):
        """A diagnostic of a question that takes too long."""
        return self.diagnostic(0, 0, INFORMATION, message)

    def related(self, places):
        """Other places that matter, as the protocol has them."""
        return [
            {
                "location": {
                    "uri": self.uri,
                    "range": self.lines.range(at, self.tokens.ends[self.tokens.index_at(at)]),
                },
                "message": what,
            }
            for at, what in places
        ]

    def of_told(self, told):
        """A diagnostic of a line of `check`."""
        message, more = "\n".join([told.message, *told.hints]), {}
        is_warning = told.message.startswith("warning")
        code = f"fault {told.number}" if told.is_further else told.message.partition(":")[0]
        more["code"] = int(code.split()[-1]) if not is_warning else code
        section = section_of(code)
        if section and self.client.can("codeDescriptionSupport"):
            more["codeDescription"] = {"href": section}
        if is_warning and self.client.can("tagSupport"):
            more["tags"] = [UNNECESSARY]
        places = [*told.related, *self.origins(told.start)]
        return self.with_places(
            self.diagnostic(
                told.start, told.end, WARNING if is_warning else ERROR, message, **more
            ),
            places,
        )

    def with_places(self, diagnostic, places):
        """A diagnostic with other places that matter, in its text where the client has no room
        for them elsewhere. A place is an offset or a location of another file."""
        if not places:
            return diagnostic
        related = [
            *self.related(it for it in places if isinstance(it[0], int)),
            *({"location": it[0], "message": it[1]} for it in places if isinstance(it[0], dict)),
        ]
        if self.client.can("relatedInformation"):
            return {**diagnostic, "relatedInformation": related}
        told = "".join(
            "\n{}:{}: {}".format(
                it["location"]["range"]["start"]["line"] + 1,
                it["location"]["range"]["start"]["character"] + 1,
                it["message"],
            )
            for it in related
        )
        return {**diagnostic, "message": diagnostic["message"] + told}

    @functools.cached_property
    def places(self):
        """The map of the places that the text was made from; None where it has none, or was
        changed since."""
        path = self.path and f"{self.path}.map"
        try:
            size = os.path.getsize(self.path) if path and os.path.isfile(path) else -1
            if size != len(questions.encoded(self.text)):
                return None
            return shared.Places(self.path)
        except (OSError, ValueError, IndexError, SystemExit):
            return None

    def origin(self, at):
        """The location that a place was written at; None where it was written here."""
        written = self.places and self.places.of(*shared.place_of(self.text, at))
        if not written:
            return None
        name, line, column = written
        place = {"line": line - 1, "character": column - 1}
        try:
            with open(name, "rb") as file:
                text = shared.decoded(file.read())
            lines = protocol.Lines(text, self.client.encoding)
            offset = min(shared.offset_of(text, line, column), len(text))
            place = lines.position(offset)
        except OSError:
            pass
        return {
            "uri": protocol.uri_of(os.path.abspath(name)),
            "range": {"start": place, "end": place},
        }

    def origins(self, at):
        origin = self.origin(at)
        return [(origin, "it was written here")] if origin else []

    def replaced(self, new):
        """The edits that make another text of this one: at most one."""
        if new == self.text:
            return []
        start = len(os.path.commonprefix([self.text, new]))
        rest = min(len(self.text), len(new)) - start
        ends = self.text[len(self.text) - rest :][::-1], new[len(new) - rest :][::-1]
        end = len(os.path.commonprefix(ends)) if rest else 0
        range_ = self.lines.range(start, len(self.text) - end)
        return [{"range": range_, "newText": new[start : len(new) - end]}]

    def selections(self, at):
        """The range of what stands around an offset, from the inside to the outside."""
        found = [(0, len(self.text))]
        for root in self.parsed.roots:
            start, end = self.parsed.range(root)
            if start <= at <= end:
                for node in notation.nodes_of(root):
                    span = self.parsed.range(node)
                    if span[0] <= at <= span[1] and span != found[-1]:
                        found.append(span)
        index = self.touched(at)
        span = self.tokens.starts[index], self.tokens.ends[index]
        if span[0] <= at <= span[1] and span not in found:
            found.append(span)
        selection = None
        for span in sorted(set(found), key=lambda it: (it[0] - it[1], it)):
            if selection is None or span[0] >= inner[0] and span[1] <= inner[1]:
                selection, inner = {
                    "range": self.lines.range(*span),
                    **({"parent": selection} if selection else {}),
                }, span
        return selection

    def foldings(self):
        found = {}
        for start, end in self.tokens.comments:
            self.fold(found, start, end, "comment")
        for root in self.parsed.roots:
            for node in notation.nodes_of(root):
                if node.kind in ("typedef", "fundef", "elem", "group", "match", "clause"):
                    self.fold(found, *self.parsed.range(node))
        return [found[line] for line in sorted(found)]

    def fold(self, found, start, end, kind=None):
        first, last = (self.lines.position(it)["line"] for it in (start, end))
        if last > first and (first not in found or found[first]["endLine"] < last):
            found[first] = {"startLine": first, "endLine": last}
            if kind:
                found[first]["kind"] = kind

    def semantics(self, start=0, end=None):
        """The semantic tokens between two offsets: for each five numbers, as the protocol has
        them."""
        end = len(self.text) if end is None else end
        tokens = self.tokens
        spans = [(*it, TOKENS.index("comment"), 0) for it in tokens.comments if it[1] > start]
        for index in range(tokens.index_at(start), len(tokens.kinds) - 1):
            if tokens.starts[index] >= end:
                break
            kind = self.semantic(index)
            if kind:
                is_label = tokens.kinds[index] == "label"
                spans.append((tokens.starts[index], tokens.ends[index] - is_label, *kind))
        return self.lines.encoded(it for it in sorted(spans) if it[0] < end)

    def is_in_text(self, tokens):
        """Whether what is read up to a place ends in a comment or a text."""
        return tokens.broken.get(len(tokens.kinds) - 2) in ("open comment", "open text", "escape")

    def item(self, kind, label, start, at, detail=None, new=None):
        """A completion in place of what stands between two offsets."""
        found = {"label": label, "kind": ITEM_KINDS[kind]}
        if detail:
            found["detail"] = shortened(detail)
        if kind == "label" and self.text.startswith("[", at):
            new = label[:-1]
        elif kind == "label" and self.client.has_snippets:
            found.update(insertTextFormat=2)
            new = f"{label}$0]"
        found["textEdit"] = {"range": self.lines.range(start, at), "newText": new or label}
        return found

    def hover_of(self, parts, start, end):
        """A hover of parts, each a kind ("code" or "text") and a text."""
        if not parts:
            return None
        if self.client.has_markdown:
            value = "\n\n".join(
                f"```xduce\n{it}\n```" if kind == "code" else marked(it) for kind, it in parts
            )
        else:
            value = "\n\n".join(it for _, it in parts)
        kind = "markdown" if self.client.has_markdown else "plaintext"
        return {"contents": {"kind": kind, "value": value}, "range": self.lines.range(start, end)}

    def told_at(self, at):
        """What was told of an offset, as parts of a hover."""
        return [
            ("text", "\n".join([it.message, *it.hints]))
            for it in self.told or ()
            if it.start <= at <= it.end
        ]


def marked(text):
    """A text as Markdown that shows it as it is."""
    return re.sub(r"([\\`*_{}\[\]<>#|])", r"\\\1", text).replace("\n", "  \n")


class Program(Text):
    """One version of a program."""

    is_program = True

    @property
    def names(self):
        with self.lock:
            if "_names" not in self.__dict__:
                self._names = notation.Names(self.parsed)
            return self._names

    def diagnostics(self, task, publish):
        """Asks what `check` answers, and publishes it; then again with what is found by further
        questions."""
        explainer, output = self.judge(task)
        if not explainer:
            publish([self.refused(output)])
            return
        publish([self.of_told(it) for it in self.told])
        # (what is asked further ends with the task)
        explainer.ask = task.ask
        told, found = explainer.told(output), []
        is_short = len(self.text) <= MOST_LINTED
        if output.endswith("accepted\n") and is_short and self.client.setting("lint"):
            program = lint.Lint(self.text, task.ask, self.parsed)
            found = [it for it in program.findings(output) if it.kind != "unreached"]
        self.told = told
        rows = [*((it, self.of_told) for it in told), *((it, self.of_finding) for it in found)]
        publish([of(it) for it, of in sorted(rows, key=lambda it: it[0].start)])

    def judge(self, task):
        """Asks what `check` answers, and keeps what is told of it. What explains it, None where it
        says nothing of the program, and the answer."""
        # (the program is read while the command is asked)
        threading.Thread(target=lambda: self.names, daemon=True).start()
        status, output = task.ask("check", self.text)
        if status not in (0, 1):
            self.told = []
            return None, output
        explainer = hints.Explainer(self.text, None, self.parsed)
        if self.told is None:
            self.told = explainer.told(output)
        return explainer, output

    def refused(self, output):
        """A diagnostic of an answer that is none."""
        what = "the text is too long for the command" if output.startswith("too long") else output
        return self.diagnostic(0, 0, WARNING, what.rstrip("\n") or "there isn't enough memory")

    def of_finding(self, it):
        more = {"code": it.kind}
        if it.kind == "unused" and self.client.can("tagSupport"):
            more["tags"] = [UNNECESSARY]
        return self.with_places(
            self.diagnostic(it.start, it.end, HINT, it.what, **more), it.related
        )

    # What a name is, and where else it stands.

    def entity_at(self, at):
        index = self.touched(at)
        entity = self.names.at.get(index)
        return index, entity

    def definition(self, at):
        _, entity = self.entity_at(at)
        return [self.written(it) for it in entity.definitions] if entity else []

    def written(self, index):
        """The location of a token, in the file that it was written in."""
        return self.origin(self.tokens.starts[index]) or self.location(index)

    def occurrences(self, at, has_definition=True):
        _, entity = self.entity_at(at)
        if not entity:
            return []
        return sorted({*entity.uses, *(entity.definitions if has_definition else ())})

    def references(self, at, has_definition):
        return [self.location(it) for it in self.occurrences(at, has_definition)]

    def highlights(self, at):
        _, entity = self.entity_at(at)
        written = entity.definitions if entity else ()
        return [
            {"range": self.token_range(it), "kind": 3 if it in written else 2}
            for it in self.occurrences(at)
        ]

    def renamable(self, at):
        index, entity = self.entity_at(at)
        if not entity or not entity.definitions:
            raise Refused(REQUEST_FAILED, "only types, functions and variables have other names")
        return index, entity

    def placeholder(self, at):
        index, entity = self.renamable(at)
        return {"range": self.token_range(index), "placeholder": entity.name}

    def rename(self, at, new):
        """The edits that give a type, a function or a variable another name."""
        _, entity = self.renamable(at)
        if not isinstance(new, str) or not re.fullmatch(notation.WORD, new):
            raise Refused(REQUEST_FAILED, f"a name has {hints.LETTERS.split(' have ')[1]}")
        if new in notation.KEYWORDS:
            raise Refused(REQUEST_FAILED, f"{new} is a keyword and can't be a name")
        places = self.occurrences(at)
        pieces, last = [], 0
        for index in places:
            pieces += [self.text[last : self.tokens.starts[index]], new]
            last = self.tokens.ends[index]
        text = "".join([*pieces, self.text[last:]])
        if self.bindings(self.names) != self.bindings(notation.Names(notation.Parsed(text))):
            raise Refused(REQUEST_FAILED, f"{new} would then stand for something else, too")
        edits = [{"range": self.token_range(it), "newText": new} for it in places]
        return {"changes": {self.uri: edits}}

    @staticmethod
    def bindings(names):
        """What each name stands for, by where that is defined, and which are defined twice."""
        return (
            {index: tuple(it.definitions) for index, it in names.at.items()},
            sorted(index for _, index in names.unknown),
            names.twice,
        )

    # What is shown of names.

    def hover(self, at, task):
        index, entity = self.entity_at(at)
        parts = self.told_at(at)
        if entity:
            parts += getattr(self, f"of_{entity.space}")(entity, task)
        return self.hover_of(parts, self.tokens.starts[index], self.tokens.ends[index])

    def source(self, node):
        return self.text[slice(*self.parsed.range(node))]

    def comment(self, node):
        """The comment directly before a definition, without its signs."""
        start, found = self.tokens.starts[node.first], []
        for begin, end in reversed(self.tokens.comments):
            if end <= start:
                between = self.text[end:start]
                front = self.text[self.text.rfind("\n", 0, begin) + 1 : begin]
                if between.strip() or between.count("\n") > 1 or front.strip():
                    break
                found.insert(0, self.text[begin + 2 : end - 2])
                start = begin
        lines = "\n".join(found).strip().split("\n")
        return "\n".join(it.strip() for it in lines)

    def of_type(self, entity, task):
        """A type's definition, and a least document of it."""
        if not entity.definitions:
            told = {"String": "one text, whatever it is", "Any": "whatever comes"}[entity.name]
            return [("code", entity.name), ("text", told)]
        parts = [("code", first_lines(self.source(entity.node)))]
        comment = self.comment(entity.node)
        if comment:
            parts.append(("text", comment))
        status, output = task.ask("least", self.text, entity.name)
        document = output.rstrip("\n")
        if status == 6:
            parts.append(("text", "no document fits it"))
        elif status == 0 and document == "()":
            parts.append(("text", "it can be empty"))
        elif status == 0:
            parts += [
                ("text", "it can't be empty, and this is a least document of it:"),
                ("code", first_lines(document)),
            ]
        return parts

    def signature(self, node):
        """A function without its body."""
        head = self.text[self.tokens.starts[node.first] : self.parsed.range(node.parts[-2])[1]]
        return " ".join(re.sub(r"\(\*.*?\*\)", " ", head, flags=re.S).split())

    def of_function(self, entity, _):
        parts, comment = [("code", self.signature(entity.node))], self.comment(entity.node)
        return [*parts, ("text", comment)] if comment else parts

    def of_variable(self, entity, task):
        """A variable with its type, as it is written and as the program shows it."""
        if entity.role == "parameter":
            type_ = self.source(entity.node.parts[0]) if entity.node.parts else "Any"
            return [("code", f"val {entity.name} as {' '.join(type_.split())}")]
        written = " ".join(self.source(entity.node).split())
        try:
            found = self.types_of(entity, task)
        except questions.Ended:
            return [("code", written), ("text", "its type takes longer to find")]
        if not found:
            return [("code", written)]
        (type_, more), less = found
        parts = [("code", first_lines(f"val {entity.name} as {type_}\n{more}"))]
        if less:
            parts += [
                ("text", "but what a run gives it, by the first way, is"),
                ("code", first_lines("\n".join(less))),
            ]
        return parts

    def types_of(self, entity, task):
        """The type of a variable for the check, and by first matches where that is less, each as a
        text and definitions that it needs; None where its function has faults."""
        wide = self.block("types", entity, task)
        if not wide:
            return None
        found, precise = self.in_names(wide, task), self.block("precise", entity, task) or wide
        if precise == wide:
            return found, None
        less, its_text = shown.renamed(*precise, "P")
        more, text = shown.renamed(*wide, "W")
        if task.ask("subtype", its_text + text, more, less)[0] != 6:
            return found, None
        return found, self.in_names(precise, task)

    def block(self, command, entity, task):
        """What `types` or `precise` shows of a variable. Of other functions than its own the
        declared types matter alone, so their bodies are left out."""
        start = self.tokens.starts[entity.definitions[0]]
        for root in self.parsed.roots:
            begin, end = self.parsed.range(root)
            if begin <= start < end:
                status, output = task.ask(command, f"{self.text[begin:end]}\n{self.others(root)}")
                place = shared.place_of(self.text[begin:end], start - begin)
                return shown.blocks(output).get(place) if status == 0 else None
        return None

    def others(self, function):
        """The types of the program, and the functions but one, without their bodies."""
        with self.lock:
            if "_heads" not in self.__dict__:
                self._heads = {
                    id(it): hints.signature(self.parsed, it)
                    for it in self.parsed.roots
                    if it.kind == "fundef"
                }
                self._types = shown.definitions_of(self.parsed)
        return self._types + "".join(
            head for number, head in self._heads.items() if number != id(function)
        )

    def in_names(self, block, task):
        """A shown type in the author's names, as a part, and definitions that it needs."""
        typed, more = shown.in_names(self.parsed, *block, task.ask)
        lines = layout.laid_out(f"type T = {typed}\n")
        part = shown.bound("x", lines.partition("=")[2].strip())
        return part.partition(" as ")[2], layout.laid_out(more)

    def precise(self, entity, task):
        """What first matches give a variable, in the author's names, and definitions that it
        needs; None where the program has faults."""
        block = self.block("precise", entity, task)
        return self.in_names(block, task) if block else None

    def actions(self, start, end, only, task):
        """What can be mended between two offsets."""
        if only and not any(it in ("", "quickfix") for it in only):
            return []
        if self.told is None:
            # (what was just typed has faults that weren't told yet)
            self.judge(task)
        found = [
            (*it, told)
            for told in self.told
            if told.start <= end and start <= told.end
            for it in actions.of_told(self, told)
        ]
        first, last = self.tokens.index_at(start), self.tokens.index_at(end)
        entities = {
            id(it): it
            for index in range(first, last + 1)
            if self.tokens.starts[index] <= end and (it := self.names.at.get(index))
        }
        for entity in entities.values():
            if entity.space == "variable":
                try:
                    found += [(*it, None) for it in actions.of_variable(self, entity, task)]
                except questions.Ended:
                    pass
        return [self.action(*it) for it in found]

    def action(self, title, edits, told):
        edits = [{"range": self.lines.range(*span), "newText": new} for *span, new in edits]
        of = {"diagnostics": [self.of_told(told)]} if told else {}
        return {"title": title, "kind": "quickfix", **of, "edit": {"changes": {self.uri: edits}}}

    # What is shown in the text.

    def semantic(self, index):
        """What a token is, and what is said of it beside, as numbers; None where that is nothing.
        """
        kind, entity = self.tokens.kinds[index], self.names.at.get(index)
        if entity:
            role = "parameter" if entity.role == "parameter" else entity.space
            of = 1 if index in entity.definitions else 2 if not entity.definitions else 0
            return TOKENS.index(role), of
        name = {"text": "string", "label": "property", "word": "property"}.get(kind)
        name = name or ("keyword" if kind in notation.KEYWORDS else None)
        name = name or ("operator" if kind in ("->", "|", "*", "+", "?", "~", "^") else None)
        return name and (TOKENS.index(name), 0)

    def inlays(self, start, end, task):
        """The types of variables that are bound without one."""
        found = []
        for entity in self.names.variables if self.client.setting("inlayHints") else ():
            at = self.tokens.ends[entity.definitions[0]]
            if entity.role == "variable" and not entity.node.parts and start <= at <= end:
                shown = self.precise(entity, task)
                if shown:
                    found.append(
                        {
                            "position": self.lines.position(at),
                            "label": f" as {shortened(shown[0], 60)}",
                            "kind": 1,
                        }
                    )
        return found

    # Symbols.

    def symbols(self):
        found = []
        for node in self.parsed.roots:
            if node.kind in ("typedef", "fundef") and node.name is not None:
                role = "type" if node.kind == "typedef" else "function"
                symbol = {
                    "name": self.tokens.word(node.name),
                    "kind": SYMBOL_KINDS[role],
                    "range": self.node_range(node),
                    "selectionRange": self.token_range(node.name),
                }
                if role == "function":
                    symbol["detail"] = shortened(self.signature(node).partition(" ")[2], 100)
                found.append(symbol)
        return found

    # What may stand at a place.

    def before(self, at):
        """What is read of a definition up to an offset."""
        begin = 0
        for match in BEGIN.finditer(self.text, 0, at):
            begin = match.start()
        return notation.Parsed(self.text[begin:at], until=at - begin)

    def completions(self, at, task):
        start = at - len(PREFIX.search(self.text[:at][-200:])[0])
        parsed = self.before(start)
        tokens, can = parsed.tokens, parsed.possible
        last = tokens.kinds[len(tokens.kinds) - 2] if len(tokens.kinds) > 1 else ""
        if self.is_in_text(tokens) or can == {"word"} or last == "~":
            return []
        found = []
        wanted, known = parsed.expected, self.read_before
        if "a type" in wanted or "a pattern" in wanted:
            found += [
                self.item("type", name, start, at, known.detail(entity))
                for name, entity in known.names.types.items()
            ]
            found += self.labels(start, at, parsed, known, task)
        elif "an expression" in wanted:
            scope = notation.Names(parsed).in_scope(len(tokens.kinds) - 1)
            found += [
                self.item(it.role, it.name, start, at, self.written_as(parsed, it)) for it in scope
            ]
            found += [
                self.item("function", name, start, at, known.detail(it))
                for name, it in known.names.functions.items()
            ]
            found += self.labels(start, at, parsed, known, task)
        return found + [self.item("keyword", it, start, at) for it in notation.KEYWORDS if it in can]

    @staticmethod
    def written_as(parsed, entity):
        start, end = parsed.range(entity.node)
        return " ".join(parsed.text[start:end].strip("()").split())

    def detail(self, entity):
        if not entity.definitions:
            return None
        if entity.space == "function":
            return self.signature(entity.node)
        return " ".join(self.source(entity.node).split())

    def labels(self, start, at, parsed, known, task):
        """Labels: in a pattern those that may stand there, else those of the program."""
        found = None
        if "a pattern" in parsed.expected:
            try:
                found = completion.labels(parsed, known.parsed, task.ask)
            except questions.Ended:
                pass
        if found is None:
            found = sorted(set(LABEL.findall(self.text)))
        return [self.item("label", f"{it}[", start, at) for it in found]

    def call_at(self, at):
        """Around an offset: the name of the function that is called, and the number of the
        argument; None where no call is."""
        parsed = self.before(at)
        tokens, kinds = parsed.tokens, parsed.tokens.kinds
        for opened in reversed(parsed.opened):
            if kinds[opened] != "(":
                continue
            index, number = opened - 1, 0
            while index > 0 and kinds[index] == ")":
                depth = 1
                while depth and index > 0:
                    index -= 1
                    depth += (kinds[index] == ")") - (kinds[index] == "(")
                index, number = index - 1, number + 1
            if index > 0 and kinds[index] == "word" and kinds[index - 1] != "fun":
                return tokens.spelling(index), number
        return None

    def help(self, at):
        called = self.call_at(at)
        known = self.read_before
        entity = called and known.names.functions.get(called[0])
        if not entity:
            return None
        label, comment = known.signature(entity.node), known.comment(entity.node)
        parameters = [
            " ".join(known.source(it).split()) for it in entity.node.parts if it.kind == "param"
        ]
        return {
            "signatures": [
                {
                    "label": label,
                    "parameters": [{"label": it} for it in parameters],
                    **({"documentation": comment} if comment else {}),
                }
            ],
            "activeSignature": 0,
            "activeParameter": called[1],
        }

    def formatted(self):
        if self.parsed.faults:
            return []
        return self.replaced(layout.laid_out(self.text, self.parsed))


class Document(Text):
    """One version of a document, with the type that it is to have."""

    def read(self):
        return notation.Parsed(self.text, "Document")

    @functools.cached_property
    def typed(self):
        """The path of the program and the name of the type, by the first line or by a setting."""
        folder = os.path.dirname(self.path) if self.path else os.getcwd()
        found = TYPED.match(self.text)
        if found:
            return os.path.normpath(os.path.join(folder, found[1])), found[2]
        for row in self.client.setting("documents") or ():
            if not isinstance(row, dict):
                continue
            pattern, program, name = (row.get(it) for it in ("files", "program", "type"))
            if isinstance(program, str) and isinstance(name, str) and self.path:
                base = os.path.basename(self.path)
                if not pattern or any(fnmatch.fnmatch(it, str(pattern)) for it in (base, self.path)):
                    top = self.client.root or folder
                    return os.path.normpath(os.path.join(top, program)), name
        return None

    def program(self):
        """The text of its program, as the client has it or as it stands in its file; None where it
        can't be read."""
        path = self.typed[0]
        text = self.client.text_of(path)
        if text is None:
            try:
                with open(path, "rb") as file:
                    text = shared.decoded(file.read())
            except (OSError, ValueError):
                return None
        return text

    @property
    def walk(self):
        """The walk through documents of its type; None where there is none."""
        program = self.typed and self.program()
        if program is None:
            return None
        with self.client.lock:
            key = program, self.typed[1]
            if self.client.walk[0] != key:
                try:
                    self.client.walk = key, where.walk_in(*key)
                except notation.Malformed:
                    self.client.walk = key, None
            return self.client.walk[1]

    def of_type_line(self, message):
        found = TYPED.match(self.text)
        start, end = found.span(1) if found else (0, 0)
        return self.diagnostic(start, end, WARNING, message)

    def diagnostics(self, task, publish):
        if not self.typed:
            fault = self.parsed.faults[0] if self.parsed.faults else None
            publish([self.of_fault(fault)] if fault else [])
            return
        program, (path, name) = self.program(), self.typed
        if program is None:
            publish([self.of_type_line(f"cannot read {path}")])
            return
        data = questions.encoded(self.text)
        status, output = task.ask("stream", program, name, data, "65536")
        if status == 0:
            publish([])
        elif status in (6, 7):
            publish(self.stops(data, output, status == 7))
        elif status == 1:
            line = output.splitlines()[0]
            publish([self.of_type_line(f"{path}:{line}")])
        else:
            publish([self.of_type_line(output.rstrip("\n") or "there isn't enough memory")])

    def of_fault(self, fault):
        """A diagnostic of a place with which no document goes on."""
        at, end = self.tokens.starts[fault.token], self.tokens.ends[fault.token]
        said = [hints.expected(self.parsed, fault)]
        said += hints.of_document(questions.encoded(self.text), self.text, at)
        spelled = self.tokens.spelling(fault.token)[:40] or "the end"
        return self.diagnostic(
            at, end, ERROR, "\n".join([f"no document goes on with {spelled}", *said])
        )

    def stops(self, data, output, is_malformed):
        """Diagnostics of all places where the document goes wrong."""
        at = shared.offset_of(self.text, *shared.pair(output.rsplit(": ")[0]))
        text = shared.decoded(data)
        walk, is_whole = self.walk, len(text) == len(self.text)
        stop = walk and where.stop_at(walk, text, at, is_malformed, is_whole)
        said = hints.of_document(data, text, at) if is_malformed else []
        if not stop:
            return [self.at(at, [output.rpartition(": ")[2].rstrip("\n"), *said])]
        found = [self.at(at, [*where.told(walk, text, stop), *said])]
        return found + [
            self.at(place, lines) for place, lines, _ in where.later_stops(data, text, walk, stop)
        ]

    def at(self, at, lines):
        index = self.tokens.index_at(at)
        end = max(self.tokens.ends[index], at) if self.tokens.starts[index] <= at else at
        return self.with_places(
            self.diagnostic(at, end, ERROR, "\n".join(lines)), self.origins(at)
        )

    def hover(self, at, task):
        parts = self.told_at(at)
        return self.hover_of(parts, at, at)

    def semantic(self, index):
        name = {"text": "string", "label": "property"}.get(self.tokens.kinds[index])
        return name and (TOKENS.index(name), 0)

    def completions(self, at, task):
        start = at - len(PREFIX.search(self.text[:at][-200:])[0])
        walk = self.walk
        if not walk:
            return []
        try:
            walk.follow(self.text[:start])
        except where.Stop as stop:
            place, _, state, level, _ = stop.args
            if place == start and state <= where.COMMA:
                return [
                    self.item("label", it, start, at)
                    for it in walk.items(level)
                    if re.fullmatch(rf"{notation.WORD}\[", it)
                ]
        return []

    def formatted(self):
        if self.parsed.faults:
            return []
        return self.replaced(format_.document(self.tokens, False))

    def symbols(self):
        """The elements, each with those inside, as far as there aren't too many."""
        found, room = [], 5000
        waiting = [(node, found) for node in self.parsed.roots]
        while waiting:
            node, into = waiting.pop()
            if node.kind == "elem" and node.name is not None:
                room -= 1
                if room < 0:
                    break
                symbol = {
                    "name": self.tokens.word(node.name),
                    "kind": SYMBOL_KINDS["element"],
                    "range": self.node_range(node),
                    "selectionRange": self.lines.range(
                        self.tokens.starts[node.name], self.tokens.ends[node.name] - 1
                    ),
                    "children": [],
                }
                into.append(symbol)
                waiting += [(it, symbol["children"]) for it in reversed(node.parts)]
            else:
                waiting += [(it, into) for it in reversed(node.parts)]
        return found


def symbols_of(client, query):
    """The definitions of all open programs, and of those in the client's folders, whose names have
    the letters of a query in this order."""
    pattern = re.compile(".*".join(map(re.escape, query)), re.I)
    with client.lock:
        programs = {it.uri: it for it in client.texts.values() if isinstance(it, Program)}
    for path in programs_in(client.folders):
        uri = protocol.uri_of(path)
        if uri not in programs:
            try:
                with open(path, "rb") as file:
                    programs[uri] = Program(uri, None, shared.decoded(file.read(MOST_READ)), client)
            except OSError:
                pass
    return [
        {
            "name": it["name"],
            "kind": it["kind"],
            "location": {"uri": program.uri, "range": it["selectionRange"]},
        }
        for program in programs.values()
        for it in program.symbols()
        if pattern.search(it["name"])
    ][:MOST_SYMBOLS]


def programs_in(folders):
    """The first programs below some folders."""
    found = []
    for top in folders:
        for folder, inner, names in os.walk(top):
            inner[:] = sorted(it for it in inner if not it.startswith("."))
            found += [f"{folder}/{it}" for it in sorted(names) if it.endswith(".x")]
            if len(found) >= MOST_FILES:
                return found[:MOST_FILES]
    return found
