"""What `types`, `precise` and `minus` show of documents, in the author's names: a part that means
the same as a declared type is told by its name.

What means the same the program says: `check` is asked about functions from the one type to the
other and back, all of a text at once. Before that only types are left out that differ in what their
documents may begin with.
"""
import functools
import re

import notation
import shared
from notation import EMPTY

VARIABLE = re.compile(r"(\d+):(\d+): variable (\w+) as (.*)")
# Parts that stay as they are, and the longest program that is asked about: of the types of a whole
# schema as DocBook an answer takes too long for what it tells.
PLAIN = (EMPTY, ("name", "Any"), ("text", notation.ALL))
LONGEST = 150_000
# What means the same, by a program's types and by what is shown.
KEPT, MOST_KEPT = {}, 1024


def blocks(output):
    """What `types` or `precise` shows: by place the name of a variable's type, and its definitions.
    """
    found = {}
    for block in re.split(r"^(?=\d+:\d+: variable )", output, flags=re.M):
        first, _, rest = block.partition("\n")
        match = VARIABLE.fullmatch(first)
        if match:
            found[int(match[1]), int(match[2])] = match[4], rest
    return found


def renamed(name, text, mark):
    """Shown definitions under other names, and the first one's."""
    names = set(re.findall(r"^type (\w+) = ", text, re.M))
    tokens = notation.Tokens(text)
    pieces, at = [], 0
    for index, kind in enumerate(tokens.kinds):
        if kind == "word" and tokens.spelling(index) in names:
            pieces += [text[at : tokens.starts[index]], mark + tokens.spelling(index)]
            at = tokens.ends[index]
    return mark + name, "".join([*pieces, text[at:]])


def in_names(parsed, name, shown, ask):
    """A shown type in the names of a program's types.

    The program is given as it was parsed, the type by its name and its definitions as they are
    shown, and `ask` answers commands about texts, as shared.ask_of_text does. Gives the type as it
    is written, such as `Part+`, and the definitions that it needs beside the program's, as a text
    that is mostly empty. Where there is no answer, no name is found. Answers are kept, for all
    programs with the same types.
    """
    found = notation.definitions(shown)
    try:
        same = same_types(definitions_of(parsed), shown, ask)
    except Unanswered:
        same = {}
    root = same.get(("name", name)) or rewritten(found[name], same)
    waiting, needed = names_in(root), {}
    while waiting:
        other = waiting.pop(0)
        if other in found and other != "Any" and other not in needed:
            needed[other] = rewritten(found[other], same)
            waiting += names_in(needed[other])
    text_of = shared.types.text_of
    return text_of(root), "".join(f"type {it} = {text_of(needed[it])}\n" for it in needed)


class Unanswered(Exception):
    """The program gave no answer."""


def bound(word, typed):
    """A variable of a pattern with its type."""
    type_ = notation.type_text(typed)
    is_row = type_[0] in ("seq", "alt") and type_ != EMPTY
    return f"val {word} as {f'({typed})' if is_row else typed}"


def definitions_of(parsed):
    """The definitions of types, as they are written."""
    definitions = (it for it in parsed.roots if it.kind == "typedef")
    return "".join(f"{parsed.text[slice(*parsed.range(it))]}\n" for it in definitions)


@functools.lru_cache(maxsize=4)
def declared(types):
    """The declared types by what their documents may begin with, in the order of the text."""
    try:
        found = notation.definitions(types)
    except notation.Malformed:
        return {}
    meaning, by_key = beginnings(found), {}
    for name in found:
        if name != "Any":
            by_key.setdefault(key(meaning, ("name", name)), []).append(name)
    return by_key


def beginnings(found):
    return shared.load("where").Beginnings(found)


def key(meaning, type_):
    """What a type's documents may begin with: whether they may be empty, and the labels and the
    texts that may come first, each as one class."""
    classes = {"elem": ((), False), "text": ((), False)}
    for kind, class_, *_ in meaning.heads(type_):
        classes[kind] = both(classes[kind], class_)
    return meaning.can_be_empty(type_), classes["elem"], classes["text"]


def both(left, right):
    """The class of what is in one of two classes."""
    (some, is_except), (others, is_other) = left, right
    if is_except and is_other:
        return notation.class_named(set(some) & set(others), True)
    if is_except or is_other:
        out, in_ = (some, others) if is_except else (others, some)
        return notation.class_named(set(out) - set(in_), True)
    return notation.class_named(set(some) | set(others), False)


def candidates(known, shown):
    """The parts of shown definitions and the declared types that may mean the same."""
    found = notation.definitions(shown)
    meaning, pairs = beginnings(found), {}
    for name, body in found.items():
        for part in (("name", name), *parts_of(body)) if name != "Any" else ():
            if part not in PLAIN and part not in pairs:
                pairs[part] = known.get(key(meaning, part), ())
    return [(part, name) for part, names in pairs.items() for name in names]


def parts_of(type_):
    """The parts of a type; of an element with one of several labels also each alone."""
    waiting = [type_]
    while waiting:
        type_ = waiting.pop()
        yield type_
        if type_[0] in ("seq", "alt"):
            waiting += reversed(type_[1])
        elif type_[0] not in ("name", "text"):
            waiting.append(type_[-1])
            yield from singles(type_)


def singles(type_):
    """The elements with one label each that an element with one of several stands for."""
    if type_[0] == "elem" and len(type_[1][0]) > 1 and not type_[1][1]:
        return [("elem", ((label,), False), type_[2]) for label in type_[1][0]]
    return []


def same_types(types, shown, ask):
    """By each part of shown definitions the declared type that means the same: the first one of the
    text. Answers are kept, whoever asked."""
    if (types, shown) not in KEPT:
        found = asked_types(types, shown, ask)
        if len(KEPT) >= MOST_KEPT:
            KEPT.clear()
        KEPT[types, shown] = found
    return KEPT[types, shown]


def asked_types(types, shown, ask):
    """The same, by a question to the program."""
    pairs, mark = candidates(declared(types), shown), fresh(types + shown)
    parts = {part: f"{mark}{number}" for number, part in enumerate(dict(pairs))}
    lines = [*types.split("\n"), *shown.split("\n")]
    lines += [f"type {its} = {shared.types.text_of(part)}" for part, its in parts.items()]
    first = len(lines) + 1
    for number, (part, name) in enumerate(pairs):
        for way, given, wanted in (("a", parts[part], name), ("b", name, parts[part])):
            lines.append(f"fun {mark}{number}{way} (val x as {given}) : {wanted} = x")
    text = "\n".join(lines)
    if not pairs or len(text) > LONGEST:
        return {}
    status, output = ask("check", text)
    wrong = {int(it) for it in re.findall(r"^(\d+):\d+: fault 14: ", output, re.M)}
    if status not in (0, 1) or len(wrong) < output.count(": fault "):
        raise Unanswered
    found = {}
    for number, (part, name) in enumerate(pairs):
        if wrong.isdisjoint((first + 2 * number, first + 2 * number + 1)):
            found.setdefault(part, ("name", name))
    return found


def fresh(text):
    """What no name of a text begins with."""
    mark = "same"
    while re.search(rf"\b{mark}", text):
        mark += "_"
    return mark


def rewritten(type_, same):
    """A type in which the parts that mean the same as a declared type are its name."""
    if type_ in same:
        return same[type_]
    kind = type_[0]
    if kind in ("name", "text"):
        return type_
    if kind in ("seq", "alt"):
        parts = [rewritten(part, same) for part in type_[1]]
        return notation.joined(kind, dict.fromkeys(parts) if kind == "alt" else parts)
    alone = singles(type_)
    if alone and all(it in same for it in alone):
        return notation.joined("alt", dict.fromkeys(same[it] for it in alone))
    return (*type_[:-1], rewritten(type_[-1], same))


def names_in(type_):
    """The names in a type, in order."""
    return [it[1] for it in parts_of(type_) if it[0] == "name"]
