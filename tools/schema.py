"""Types of schemas that were written elsewhere, for tools/rng and tools/dtd: patterns as RELAX NG
has them, and the types that they are.

A pattern is a tuple: ("empty",), ("none",), ("text",), ("choice", patterns), ("group", patterns),
("interleave", patterns), ("more", pattern) for one or more, ("element", names, pattern),
("attribute", names, pattern), ("ref", definition), ("value", text), ("data", its name, whether it
may be empty) or ("list", pattern). A class of names is ("name", namespace, local name), ("any",
classes that aren't meant), ("all", namespace, classes that aren't meant) or ("or", classes).
Attributes become elements in front of the content, in the order of their labels, as docs/xml.md
says.
"""
import re
import sys

import mapping
import notation
import shared

types = shared.types
NOTHING, TEXT = notation.EMPTY, ("text", notation.ALL)
# A program has so many bytes at most; so many names are made of one interleaving, so many choices
# of attributes.
LONGEST, MOST_NAMES, MOST_CHOICES = 1 << 20, 4096, 512
WIDTH = 100


joined = notation.joined


def class_of(names, is_except):
    """A class of labels or of texts: these, or all but these."""
    return tuple(sorted(set(names), key=str.encode)), is_except


class TooLong(Exception):
    """What would be too long, and how long."""


# Patterns, simplified while they are made.


def choice(patterns):
    found = {}
    for pattern in patterns:
        found.update(dict.fromkeys(pattern[1] if pattern[0] == "choice" else [pattern]))
    found.pop(("none",), None)
    return (
        ("none",)
        if not found
        else next(iter(found))
        if len(found) == 1
        else ("choice", tuple(found))
    )


def several(kind, patterns):
    """A group or an interleaving."""
    found = [
        inner
        for pattern in patterns
        for inner in (pattern[1] if pattern[0] == kind else [pattern])
        if inner != ("empty",)
    ]
    if ("none",) in found:
        return ("none",)
    return ("empty",) if not found else found[0] if len(found) == 1 else (kind, tuple(found))


def more(pattern):
    return pattern if pattern[0] in ("none", "empty", "text", "more") else ("more", pattern)


def optional(pattern):
    return choice([pattern, ("empty",)])


def rebuilt(pattern, leaf):
    """The pattern with its leaves and definitions replaced."""
    kind = pattern[0]
    if kind == "choice":
        return choice([rebuilt(it, leaf) for it in pattern[1]])
    if kind in ("group", "interleave"):
        return several(kind, [rebuilt(it, leaf) for it in pattern[1]])
    if kind == "more":
        return more(rebuilt(pattern[1], leaf))
    if kind in ("element", "attribute"):
        inner = rebuilt(pattern[2], leaf)
        return (
            ("none",) if kind == "attribute" and inner == ("none",) else (kind, pattern[1], inner)
        )
    return leaf(pattern)


def inside(pattern):
    """The patterns that a pattern is made of."""
    kind = pattern[0]
    if kind in ("choice", "group", "interleave"):
        return pattern[1]
    return pattern[-1:] if kind in ("more", "list", "element", "attribute") else ()


def names_of(names):
    """The names that a class names, those that it excepts too."""
    if names[0] == "name":
        return [names[1:]]
    return [it for inner in names[-1] for it in names_of(inner)]


# Types with interleavings: ("&", types).


class Interleaved(types.Meaning):
    """The meaning of types that may have ("&", types): items in any order that keeps the order of
    each of the types."""

    def __init__(self, found):
        self.ranks = {}
        super().__init__(found)

    def can_be_empty(self, type_):
        return (
            all(map(self.can_be_empty, type_[1]))
            if type_[0] == "&"
            else super().can_be_empty(type_)
        )

    def listed(self, type_):
        if type_[0] != "&":
            yield from super().listed(type_)
            return
        for number, part in enumerate(type_[1]):
            for *head, rest in self.heads(part):
                yield (*head, self.interleaved((*type_[1][:number], rest, *type_[1][number + 1 :])))

    def repeated(self, type_):
        """The items that a type repeats, if it is a repetition of single items; else None."""
        if type_[0] == "name":
            return self.repeated(self.found[type_[1]])
        return self.single(type_[1]) if type_[0] == "*" else None

    def single(self, type_):
        """The items of which a type has one; None where it isn't so."""
        kind = type_[0]
        if kind == "alt":
            found = [self.single(it) for it in type_[1]]
            return None if None in found else [it for some in found for it in some]
        if kind == "name":
            return [type_] if self.single(self.found[type_[1]]) is not None else None
        return [type_] if kind in ("elem", "text") else None

    def rank(self, type_):
        """A number for each part, so that parts have an order."""
        return self.ranks.setdefault(type_, len(self.ranks))

    def flat(self, type_, seen=()):
        if type_[0] == "name" and self.found[type_[1]][0] == "&":
            if type_[1] in seen:
                raise notation.Malformed(
                    f"type {type_[1]} comes back to itself with no item before it"
                )
            return self.flat(self.found[type_[1]], (*seen, type_[1]))
        return (
            [inner for it in type_[1] for inner in self.flat(it, seen)]
            if type_[0] == "&"
            else [type_]
        )

    def interleaved(self, parts):
        """An interleaving in a form that equal ones share: what is repeated stands first, as one
        repetition."""
        stars, others = {}, []
        for part in (inner for it in parts for inner in self.flat(it)):
            items = self.repeated(part)
            if items is not None:
                stars.update(dict.fromkeys(items))
            elif part != NOTHING:
                others.append(part)
        others.sort(key=self.rank)
        found = ([("*", joined("alt", tuple(stars)))] if stars else []) + others
        return NOTHING if not found else found[0] if len(found) == 1 else ("&", tuple(found))


class Expansion:
    """Writes out the interleavings of definitions, with a name for each that is left after some of
    the items."""

    def __init__(self, found, tell):
        self.found, self.tell = dict(found), tell
        self.meaning = Interleaved({"Any": notation.ANY, **found})
        # Elements that have a name already.
        self.declared = {
            body: name for name, body in reversed(list(found.items())) if body[0] == "elem"
        }
        # Names of what is left, and of items; definitions that aren't told yet; how often a name
        # was wanted.
        self.made, self.more, self.count, self.taken = {}, {}, {}, set()

    def all(self):
        """The definitions without interleavings, with those that were made behind the one that
        wants them."""
        expanded = {}
        for name, body in list(self.found.items()):
            expanded[name] = self.plain(body, name)
            expanded.update(self.more)
            self.more = {}
        return expanded

    def plain(self, type_, base):
        kind = type_[0]
        if kind == "&":
            return self.interleaving(self.meaning.interleaved(type_[1]), base)
        if kind in ("seq", "alt"):
            return joined(kind, tuple(self.plain(it, base) for it in type_[1]))
        return type_ if kind in ("name", "text") else (*type_[:-1], self.plain(type_[-1], base))

    def interleaving(self, state, base):
        if state[0] != "&":
            return self.plain(state, base)
        if state not in self.made:
            states = self.states(state, base)
            for it in states:
                self.made[it] = self.fresh(base)
                self.more[self.made[it]] = None
            for it in states:
                self.found[self.made[it]] = self.more[self.made[it]] = self.definition(it, base)
        return "name", self.made[state]

    def states(self, start, base):
        """What may be left of an interleaving, where it has no name yet; its size is told, and what
        is too much refused."""
        found, size = {start: None}, 0
        waiting = [start]
        for state in waiting:
            heads = self.meaning.heads(state)
            size += sum(
                len(types.text_of((*head[:2], NOTHING)[: 3 if head[0] == "elem" else 2]))
                + len(base)
                + 8
                for head in heads
            )
            for *_, rest in heads:
                if rest[0] == "&" and rest not in found and rest not in self.made:
                    found[rest] = None
                    waiting.append(rest)
            if len(found) > MOST_NAMES or size > LONGEST:
                raise TooLong(
                    f"{base}: an interleaving of {len(start[1])} parts makes more than "
                    f"{len(found) - 1:,} names, {size:,} characters: it isn't written out"
                )
        if len(found) > 2:
            self.tell(
                f"{base}: an interleaving of {len(start[1])} parts makes {len(found):,} names, "
                f"some {size:,} characters"
            )
        return found

    def definition(self, state, base):
        stars = [it for it in state[1] if self.meaning.repeated(it) is not None]
        repeated = {tuple(head[:3]) for it in stars for head in self.meaning.heads(it)}
        rows = []
        for kind, class_, content, rest in self.meaning.heads(state):
            if rest == state and (kind, class_, content) in repeated:
                continue
            item = (kind, class_) if kind == "text" else self.item((kind, class_, content), base)
            rows.append(joined("seq", (item, self.interleaving(rest, base))))
        if self.meaning.can_be_empty(state):
            rows.append(NOTHING)
        return joined("seq", (*(self.plain(it, base) for it in stars), joined("alt", tuple(rows))))

    def item(self, type_, base):
        """An item, by a name where it is long, since it stands in many places."""
        if type_ in self.declared:
            return "name", self.declared[type_]
        type_ = *type_[:2], self.plain(type_[2], base)
        if len(types.text_of(type_)) <= 24:
            return type_
        if type_ not in self.made:
            self.made[type_] = self.fresh(f"{base}_{type_[1][0][0] if type_[1][0] else 'item'}")
            self.found[self.made[type_]] = self.more[self.made[type_]] = type_
        return "name", self.made[type_]

    def fresh(self, base):
        while True:
            self.count[base] = self.count.get(base, 0) + 1
            name = f"{base}_{self.count[base]}"
            if name not in self.found and name not in self.taken:
                self.taken.add(name)
                return name


# Programs.


def wrapped(text):
    """A definition in lines, broken behind a comma or in front of a bar."""
    lines, line, depth = [], "", 0
    for piece in re.findall(r'"(?:[^"\\]|\\.)*"|[|]|[^"|,]+,?|,', text):
        if line.strip() and len(line) + len(piece) > WIDTH:
            lines.append(line.rstrip())
            line = "    "
        line += piece
    return "\n".join([*lines, line])


def type_text(name, body):
    return wrapped(f"type {name} = {types.text_of(body)}") + "\n"


def comment(text, indent=""):
    """A text as a comment, in lines."""
    text = " ".join(text.replace("*)", "* )").split())
    lines, line = [], ""
    for word in text.split(" "):
        if line and len(line) + len(word) > WIDTH - 8:
            lines.append(line)
            line = ""
        line += (" " if line else "") + word
    lines.append(line)
    return f"(* {chr(10).join([lines[0], *('   ' + it for it in lines[1:])])} *)\n"


class Schema:
    """The types of a schema: of each definition that is used, and of the start."""

    def __init__(self, defined, start, documented, prefixes, given=()):
        self.defined, self.start, self.documented = defined, start, documented
        self.table = mapping.Table(given)
        self.inexact, self.names, self.types, self.contents = {}, {}, {}, {}
        self.simplify()
        self.attributed = self.closure(
            lambda pattern: pattern[0] == "attribute", lambda pattern: pattern[0] != "element"
        )
        self.textual = self.closure(
            lambda pattern: pattern[0] == "text",
            lambda pattern: pattern[0] not in ("element", "attribute"),
        )
        self.bind(prefixes)

    def tell(self, where, what):
        """Something that the types don't say exactly."""
        self.inexact.setdefault(where, {})[what] = None

    def simplify(self):
        """Takes definitions that are empty, or that nothing fits, where they are used."""
        plain = {}
        leaf = lambda pattern: plain.get(pattern[1], pattern) if pattern[0] == "ref" else pattern
        while True:
            self.defined = {name: rebuilt(pattern, leaf) for name, pattern in self.defined.items()}
            self.start = rebuilt(self.start, leaf)
            found = {
                name: pattern
                for name, pattern in self.defined.items()
                if pattern in (("none",), ("empty",))
            }
            if found == plain:
                break
            plain = found
        used, waiting = {}, [self.start]
        for pattern in waiting:
            if pattern[0] == "ref":
                if pattern[1] not in used:
                    used[pattern[1]] = None
                    waiting.append(self.defined[pattern[1]])
            else:
                waiting += inside(pattern)
        self.defined = {name: pattern for name, pattern in self.defined.items() if name in used}

    def closure(self, is_found, goes_into):
        """The definitions that have such a pattern, in themselves or by others."""

        def has(pattern):
            return (
                is_found(pattern)
                or pattern[0] == "ref"
                and pattern[1] in found
                or goes_into(pattern)
                and any(map(has, inside(pattern)))
            )

        found, count = set(), -1
        while len(found) != count:
            count = len(found)
            found |= {
                name for name, pattern in self.defined.items() if name not in found and has(pattern)
            }
        return found

    def has(self, pattern, names, kind):
        """Whether a pattern has one of this kind outside of elements."""
        if pattern[0] == kind or pattern[0] == "ref" and pattern[1] in names:
            return True
        return pattern[0] not in ("element", "attribute") and any(
            self.has(it, names, kind) for it in inside(pattern)
        )

    def bind(self, prefixes):
        """Gives each namespace a prefix: the schema's own; none to that of most elements, if none
        of them is without a namespace."""
        elements, attributes = {}, {}
        waiting = [self.start, *self.defined.values()]
        for pattern in waiting:
            waiting += inside(pattern)
            if pattern[0] in ("element", "attribute"):
                into = elements if pattern[0] == "element" else attributes
                for namespace, local in names_of(pattern[1]):
                    into.setdefault(namespace, {})[local] = None
        count = {name: len(them) for name, them in elements.items()}
        if elements and "" not in elements and not self.table.names[""]:
            main = max(count, key=lambda name: (count[name], name))
            if main not in self.table.prefixes:
                self.table.add("", main)
        for name in sorted({*elements, *attributes} - {"", mapping.XML}):
            if (
                name not in self.table.prefixes
                or name == self.table.names[""]
                and name in attributes
            ):
                wanted = re.sub(
                    "[^A-Za-z0-9]",
                    "",
                    next(
                        (prefix for prefix, its in prefixes.items() if its == name and prefix), ""
                    ),
                ).lstrip("0123456789")
                if name in self.table.prefixes:
                    # Attributes want a prefix of their own, so the namespace isn't the default's.
                    self.table = mapping.Table(
                        [pair for pair in self.table.names.items() if pair[0] not in ("", "xml")]
                    )
                if wanted and wanted not in self.table.names:
                    self.table.add(wanted, name)
                else:
                    self.table.prefix_of(name)
        self.labels = {
            self.table.element(*it)
            for it in ((name, local) for name, them in elements.items() for local in them)
        }
        self.attribute_labels = {
            self.table.attribute(*it)
            for it in ((name, local) for name, them in attributes.items() for local in them)
        }
        self.known = elements

    # Classes of labels.

    def labels_of(self, names, where):
        """The class of labels of elements that a class of names means."""
        kind = names[0]
        if kind == "name":
            return class_of([self.table.element(*names[1:])], False)
        if kind == "or":
            found = [self.labels_of(it, where) for it in names[1]]
            if all(not is_except for _, is_except in found):
                return class_of([it for some, _ in found for it in some], False)
            excepted = set.intersection(*(set(some) for some, is_except in found if is_except))
            return class_of(
                excepted - {it for some, is_except in found if not is_except for it in some}, True
            )
        excepted = {label for it in names[-1] for label in self.excepted(it, where)}
        if kind == "all":
            excepted |= {
                self.table.element(name, local)
                for name, them in self.known.items()
                if name != names[1]
                for local in them
            }
            self.tell(
                where,
                f"any name of the namespace {names[1] or 'that is none'} is any name that the "
                "schema hasn't in another one",
            )
        self.tell(
            where, "an element of any name may also be an attribute that the schema doesn't name"
        )
        return class_of(excepted | self.attribute_labels, True)

    def excepted(self, names, where):
        if names[0] == "name":
            return [self.table.element(*names[1:])]
        if names[0] == "or":
            return [label for it in names[1] for label in self.excepted(it, where)]
        if names[0] == "all":
            self.tell(
                where,
                f"of the namespace {names[1] or 'that is none'} only the names that the schema has "
                "are excepted",
            )
            known = self.known.get(names[1], ())
            return [self.table.element(names[1], local) for local in known]
        return []

    # Attributes.

    def alternatives(self, pattern, where):
        """The attributes that a pattern may have, each time with the content beside them: a
        dictionary from labels to a class of texts and whether it may be left out, the classes of
        further attributes, and the pattern that is left."""
        kind = pattern[0]
        if kind == "ref" and pattern[1] in self.attributed:
            return self.alternatives(self.defined[pattern[1]], where)
        if not self.has(pattern, self.attributed, "attribute"):
            return [({}, (), pattern)]
        if kind == "attribute":
            return self.attribute(pattern, where)
        if kind in ("group", "interleave"):
            found = [({}, (), ("empty",))]
            for part in pattern[1]:
                its = self.alternatives(part, where)
                found = self.merged(
                    [self.both(kind, one, two) for one in found for two in its], where
                )
            return found
        if kind == "choice":
            may_lack = ("empty",) in pattern[1]
            found = [
                self.repeated(it[1], where, True)
                if it[0] == "more" and may_lack
                else self.alternatives(it, where)
                for it in pattern[1]
            ]
            return self.merged([it for its in found for it in its], where)
        return self.repeated(pattern[1], where, False)

    def attribute(self, pattern, where):
        names, text = pattern[1], self.text_of(pattern[2], where)
        if names[0] == "or":
            return self.merged(
                [
                    it
                    for one in names[1]
                    for it in self.attribute(("attribute", one, pattern[2]), where)
                ],
                where,
            )
        if names[0] == "name":
            label = self.table.attribute(*names[1:])
            return [({label: (text, False)}, (), ("empty",))]
        excepted = {self.table.attribute(*it) for inner in names[-1] for it in names_of(inner)}
        self.tell(
            where,
            "an attribute of any name may also be an element with a text that the schema doesn't "
            "name",
        )
        if names[0] == "all" or any(it[0] != "name" for it in names[-1]):
            self.tell(where, "which namespace attributes of any name are of isn't told")
        return [({}, (("elem", class_of(excepted | self.labels | {"_"}, True), text),), ("empty",))]

    def repeated(self, pattern, where, may_lack):
        """The alternatives of a repetition that has attributes: those of any name as often as they
        like, others once at most."""
        found = self.alternatives(pattern, where)
        slots, wild, contents = {}, (), []
        for its, more_wild, content in found:
            wild = tuple(dict.fromkeys((*wild, *more_wild)))
            for label, (text, _) in its.items():
                slots[label] = (
                    self.either(slots[label][0], text) if label in slots else text,
                    True,
                )
            contents.append(content)
        if not may_lack:
            self.tell(where, "attributes in a repetition may all lack")
        return [(slots, wild, optional(more(choice(contents))))]

    @staticmethod
    def either(one, two):
        return joined(
            "alt",
            tuple(
                dict.fromkeys(
                    [
                        *(one[1] if one[0] == "alt" else [one]),
                        *(two[1] if two[0] == "alt" else [two]),
                    ]
                )
            ),
        )

    def both(self, kind, one, two):
        wild = tuple(dict.fromkeys((*one[1], *two[1])))
        return {**one[0], **two[0]}, wild, several(kind, [one[2], two[2]])

    def merged(self, found, where):
        """Fewer alternatives that mean the same: those that differ in one attribute are one."""
        merged = []
        for it in found:
            while True:
                other = next((one for one in merged if self.one_of(one, it)), None)
                if other is None:
                    break
                merged.remove(other)
                it = self.one_of(other, it)
            merged.append(it)
        if len(merged) > MOST_CHOICES:
            raise TooLong(
                f"{where}: attributes and content go together in {len(merged):,} ways, more than "
                f"{MOST_CHOICES:,}"
            )
        return merged

    def one_of(self, one, two):
        """One alternative for two, if there is one."""
        if one[1:] != two[1:]:
            return None
        labels = [label for label in {**one[0], **two[0]} if one[0].get(label) != two[0].get(label)]
        if not labels:
            return one
        if len(labels) > 1:
            return None
        label = labels[0]
        first, second = one[0].get(label), two[0].get(label)
        if not first or not second:
            text = (first or second)[0]
        elif first[0] == second[0] or first[1] == second[1]:
            text = self.either(first[0], second[0])
        else:
            return None
        is_optional = not first or not second or first[1] or second[1]
        return {**one[0], **two[0], label: (text, is_optional)}, one[1], one[2]

    # Texts.

    def text_of(self, pattern, where):
        """The type of an attribute's content: just one text."""
        kind = pattern[0]
        if kind == "choice":
            found = [self.text_of(it, where) for it in pattern[1]]
            if ("text", notation.ALL) in found:
                return TEXT
            return "text", class_of([name for it in found for name in it[1][0]], False)
        if kind == "ref":
            return self.text_of(self.defined[pattern[1]], where)
        if kind == "value":
            return "text", class_of([pattern[1]], False)
        if kind == "empty":
            return "text", class_of([""], False)
        self.tell_text(pattern, where)
        return TEXT

    def tell_text(self, pattern, where):
        if pattern[0] == "data" and pattern[1] not in ("string", "token"):
            self.tell(where, f"{pattern[1]} is any text")
        elif pattern[0] == "list":
            self.tell(where, "a list of words is any text")
        elif pattern[0] not in ("text", "data"):
            self.tell(where, f"a {pattern[0]} in a text is any text")

    # Types.

    def name_of(self, definition):
        """The name of a definition's type: the schema's, as a word."""
        if definition not in self.names:
            local = definition.rpartition(" ")[2]
            word = re.sub("[^A-Za-z0-9_]", "_", local)
            word = f"_{word}" if word[:1].isdigit() else word
            taken = {*self.names.values(), "String", "Any", *notation.KEYWORDS}
            name, number = word, 1
            while name in taken:
                number += 1
                name = f"{word}_{number}"
            self.names[definition] = name
        return self.names[definition]

    def content(self, pattern, where, is_mixed=False):
        """The type of a pattern without attributes. In an interleaving a text may be interrupted,
        so it stands there in pieces."""
        kind = pattern[0]
        if kind == "empty":
            return NOTHING
        if kind == "text":
            return ("*" if is_mixed else "?"), TEXT
        if kind == "choice":
            return self.choice(pattern[1], where, is_mixed)
        if kind == "group":
            return joined("seq", tuple(self.content(it, where, is_mixed) for it in pattern[1]))
        if kind == "interleave":
            return "&", tuple(self.content(it, where, True) for it in pattern[1])
        if kind == "more":
            return self.repetition("+", self.content(pattern[1], where, is_mixed))
        if kind == "element":
            return self.element(pattern, where)
        if kind == "ref":
            if is_mixed and pattern[1] in self.textual:
                return self.content(self.defined[pattern[1]], where, True)
            return "name", self.type_of(pattern[1])
        if kind == "value":
            return ("text", class_of([pattern[1]], False)) if pattern[1] else NOTHING
        if kind == "none":
            self.types.setdefault("None", ("elem", class_of(["None"], False), ("name", "None")))
            return "name", "None"
        self.tell_text(pattern, where)
        return ("?", TEXT) if kind == "list" or pattern[2] else TEXT

    def choice(self, patterns, where, is_mixed):
        found = [self.content(it, where, is_mixed) for it in patterns if it != ("empty",)]
        texts = [it for it in found if it[0] == "text" and not it[1][1]]
        if len(texts) > 1:
            one = "text", class_of([name for it in texts for name in it[1][0]], False)
            found = [it for it in found if it not in texts] + [one]
        body = joined("alt", tuple(dict.fromkeys(found)))
        if len(found) == len(patterns) or ("empty",) not in patterns:
            return body
        return self.repetition("?", body)

    @staticmethod
    def repetition(sign, type_):
        """T*, T+ or T?, where T isn't of such a form already."""
        if type_[0] in "*?+" and len(type_) == 2:
            return ("*" if type_[0] != sign else sign), type_[1]
        if sign != "?" and type_[0] == "alt":
            inner = [it[1] if it[0] in ("?", "*") else it for it in type_[1]]
            return ("*" if any(it[0] in ("?", "*") for it in type_[1]) else sign), joined(
                "alt", tuple(inner)
            )
        return (sign, type_) if type_ != NOTHING else NOTHING

    def element(self, pattern, where):
        class_ = self.labels_of(pattern[1], where)
        rows = {}
        for slots, wild, content in self.alternatives(pattern[2], where):
            rows.setdefault(content, []).append(self.row(slots, wild))
        found = []
        for content, its in rows.items():
            front = "row", joined("alt", tuple(dict.fromkeys(its)))
            found.append(
                joined(
                    "seq", (front if front[1] != NOTHING else NOTHING, self.content(content, where))
                )
            )
        return "elem", class_, joined("alt", tuple(found))

    def row(self, slots, wild):
        """Attributes in the order of their labels, with those of any name between them."""
        between = ("*", joined("alt", wild)) if wild else NOTHING
        row = [between]
        for label in sorted(slots):
            text, is_optional = slots[label]
            item = "elem", class_of([label], False), text
            row += [("?", item) if is_optional else item, between]
        return joined("seq", tuple(row))

    def name_rows(self):
        """Gives attributes that several elements have alike a name."""
        count = {}

        def rows(type_):
            if type_[0] == "row":
                count[type_] = count.get(type_, 0) + 1
            elif type_[0] in ("seq", "alt", "&"):
                for it in type_[1]:
                    rows(it)
            elif type_[0] not in ("name", "text"):
                rows(type_[-1])

        def named(type_):
            kind = type_[0]
            if kind == "row":
                if count[type_] == 1 or len(types.text_of(type_[1])) < 40:
                    return type_[1]
                if type_ not in given:
                    given[type_] = self.name_of(
                        f"attributes {len(given) + 1} attributes_{len(given) + 1}"
                    )
                return "name", given[type_]
            if kind in ("seq", "alt"):
                return joined(kind, tuple(map(named, type_[1])))
            if kind == "&":
                return kind, tuple(map(named, type_[1]))
            return type_ if kind in ("name", "text") else (*type_[:-1], named(type_[-1]))

        given = {}
        for body in self.types.values():
            rows(body)
        self.types = {name: named(body) for name, body in self.types.items()}
        self.types.update({name: row[1] for row, name in given.items()})

    def type_of(self, definition):
        name = self.name_of(definition)
        if definition not in self.contents:
            self.contents[definition] = None
            self.types[name] = None
            self.types[name] = self.content(self.defined[definition], name)
        return name

    def program(self, heading, first="start"):
        """The program's text, and what it says on standard error."""
        told = []
        start_name = self.name_of(first)
        self.types[start_name] = None
        self.types[start_name] = self.content(self.start, start_name)
        if self.has(self.start, self.attributed, "attribute"):
            raise mapping.Unmapped("the start has an attribute outside of elements")
        self.name_rows()
        origin = {name: definition for definition, name in self.names.items()}
        text = [comment(heading), self.table.lines()]
        for name, body in Expansion(self.types, told.append).all().items():
            text += [comment(it) for it in self.documented.get(origin.get(name), ())]
            if name in self.inexact:
                text.append(comment(f"not exact: {'; '.join(self.inexact[name])}"))
            text.append(type_text(name, body))
        return "".join(text), [*told, *self.not_exact()]

    def not_exact(self):
        """What the types don't say exactly, each with the types that it is said of."""
        found = {}
        for name, its in self.inexact.items():
            for it in its:
                found.setdefault(it, []).append(name)
        for it, names in found.items():
            shown = ", ".join(names[:5]) + (f" and {len(names) - 5} more" if len(names) > 5 else "")
            yield f"not exact: {it}: {shown}"


def write(program, told):
    """Writes a program, and says what there is to say of it."""
    size = len(program.encode())
    for line in told[:40]:
        print(f"note: {line}", file=sys.stderr)
    if len(told) > 40:
        print(
            f"note: and {len(told) - 40} more, which stand in the types' comments", file=sys.stderr
        )
    if size > LONGEST:
        raise TooLong(f"the types have {size:,} bytes, and a program at most {LONGEST:,}")
    sys.stdout.write(program)
