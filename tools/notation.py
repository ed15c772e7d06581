"""The notation of programs, types and documents, once for all tools: tokens, grammar, syntax trees,
names and faults.

The grammar is data, RULES: each nonterminal has rows of symbols. From it come the syntax tree, the
first fault (the one that the program tells), what may stand at a place, and what is open there.
After a fault the reading goes on, at the closing sign of what is open, at a `|`, a comma or a `->`
that belongs to something around, or at a definition that begins a line; so there may be several
faults, and there is always a tree. What is left out in it are nodes of the kind "missing".
Nothing here calls itself for each level of nesting.
"""
import array
import bisect
import re

KEYWORDS = ("type", "fun", "val", "as", "match", "with")
DEEPEST = 256
PREDEFINED = ("String", "Any")
WORDS = frozenset(("word", *KEYWORDS))
WORD = r"[A-Za-z_][A-Za-z0-9_]*"
TOKEN = re.compile(
    rf"""[ \t\r\n]*(?:(\(\*.*?\*\)) | ({WORD}\[) | ({WORD}) | ("[^"\\]*(?:\\["\\nt][^"\\]*)*")
    | (->|\((?!\*)|[)\[\],|*+?=:~^]) | (\Z) | (.))""",
    re.X | re.S,
)
COMMENT, LABEL, NAME, TEXT, SIGN, END, BROKEN = range(1, 8)
# A text from its quote to the next one, whatever its escapes are.
QUOTED = re.compile(r'"[^"\\\n]*(?:\\.[^"\\\n]*)*"')
ESCAPE = re.compile(r'\\["\\nt]')
WRONG_ESCAPE = re.compile(r'"[^"\\]*(?:\\["\\nt][^"\\]*)*\\.', re.S)
PLAIN = {'\\"': '"', "\\\\": "\\", "\\n": "\n", "\\t": "\t"}
ESCAPED = {plain: escaped for escaped, plain in PLAIN.items()}


def unescaped(text):
    """The text that a text in quotes stands for."""
    return ESCAPE.sub(lambda it: PLAIN[it[0]], text[1:-1])


def quoted(text):
    """A text in its quotes, in its canonical spelling."""
    return '"' + re.sub(r'["\\\n\t]', lambda it: ESCAPED[it[0]], text) + '"'


class Tokens:
    """The tokens of a text, in lists of one length: their kinds, where they begin, where they end.

    A kind is "word", "label" (with its bracket), "text", "end" or "broken"; that of a keyword or a
    sign is its spelling. The last token is the end. A broken one is no token of the notation:
    `broken` says of its index whether it is a "character", an "escape", an "open text" or an
    "open comment". Comments are no tokens and stand in a list of their own, each as its begin and
    its end.
    """

    __slots__ = ("text", "kinds", "starts", "ends", "comments", "broken", "lines")

    def __init__(self, text):
        self.text, self.kinds = text, []
        self.starts, self.ends = array.array("q"), array.array("q")
        self.comments, self.broken, self.lines = [], {}, None
        kinds, starts, ends = self.kinds.append, self.starts.append, self.ends.append
        at = 0
        while at is not None:
            at = self.read(text, at, kinds, starts, ends)

    def read(self, text, at, kinds, starts, ends):
        """Reads from an index on; where a broken token was read, goes on behind it."""
        for token in TOKEN.finditer(text, at):
            which = token.lastindex
            start, end = token.span(which)
            if which == SIGN:
                kinds(text[start:end])
            elif which == NAME:
                word = text[start:end]
                kinds(word if word in KEYWORDS else "word")
            elif which == LABEL:
                kinds("label")
            elif which == TEXT:
                kinds("text")
            elif which == COMMENT:
                self.comments.append((start, end))
                continue
            elif which == END:
                kinds("end")
                starts(start), ends(end)
                return None
            else:
                why, end = self.break_at(text, start)
                self.broken[len(self.starts)] = why
                kinds("broken")
                starts(start), ends(end)
                return end
            starts(start), ends(end)

    @staticmethod
    def break_at(text, start):
        """Why no token begins here, and where to go on."""
        if text.startswith("(*", start):
            return "open comment", len(text)
        if text[start] != '"':
            return "character", start + 1
        line = text.find("\n", start)
        whole = QUOTED.match(text, start)
        end = whole.end() if whole else len(text) if line < 0 else line
        return "escape" if WRONG_ESCAPE.match(text, start) else "open text", end

    def spelling(self, index):
        return self.text[self.starts[index] : self.ends[index]]

    def word(self, index):
        """The spelling of a word or label, without the bracket."""
        return self.text[self.starts[index] : self.ends[index]].rstrip("[")

    def place(self, at):
        """The line and the column of an offset, both from 1."""
        if self.lines is None:
            self.lines = [0, *(it.end() for it in re.finditer("\n", self.text))]
        line = bisect.bisect_right(self.lines, at)
        return line, at - self.lines[line - 1] + 1

    def offset(self, line, column):
        """The offset of a place; of one behind the end of its line, that end."""
        self.place(0)
        if line > len(self.lines):
            return len(self.text)
        end = self.lines[line] - 1 if line < len(self.lines) else len(self.text)
        return max(min(self.lines[line - 1] + column - 1, end), 0)

    def index_at(self, at):
        """The token that an offset is in or, between tokens, that begins next."""
        return min(bisect.bisect_right(self.ends, at), len(self.kinds) - 1)


class Node:
    """A part of a program, from its first token to its last, both as indices.

    | kind | name: a token | parts |
    |---|---|---|
    | typedef | its name | the type |
    | fundef | its name | its parameters, the type of the result, the body |
    | param | its name | its type |
    | name | in a type or a pattern: the name | |
    | texts | in a type or a pattern: the first token of a class of texts | |
    | elem | the token with the bracket, the class begins at `first` | its content, if it has any |
    | val | the variable's name | its pattern, if it has one |
    | seq, alt | | at least two |
    | *, +, ? | | what is repeated |
    | group | | what is in the parentheses |
    | empty | | |
    | text, var | in an expression: the token | |
    | call | the function's name | its arguments, each a group or empty |
    | match | | what is matched, and its clauses |
    | clause | | its pattern and its expression |
    | missing | | what couldn't be read, if something could |

    A name that is missing is None.
    """

    __slots__ = ("kind", "first", "last", "name", "parts")

    def __init__(self, kind, first, last, name, parts):
        self.kind, self.first, self.last, self.name, self.parts = kind, first, last, name, parts

    def __repr__(self):
        return f"Node({self.kind}, {self.first}, {self.last}, {self.name}, {self.parts})"


class Fault:
    """A place with which no text goes on: its number (2, or 3 for what nests too deep), its token,
    what may stand there in its stead, and what is open, each as the index of the token that opened
    it, the outermost first. Its sort is "type", "pattern", "expression" or "item", by what goes on
    there, else "definition"."""

    __slots__ = ("number", "token", "expected", "kinds", "opened", "sort")

    def __init__(self, number, token, expected, kinds, opened, sort):
        self.number, self.token, self.expected, self.kinds = number, token, expected, kinds
        self.opened, self.sort = opened, sort


# What rows are made of, divided by spaces: kinds of tokens, names of other nonterminals, and steps
# that make nodes, which begin with `!`. A token is followed by `<` where it opens a level of
# nesting, by `>` where it closes one, and by `@` where its index is kept for the next step; a `>`
# alone closes one, too. A row without tokens and nonterminals says that nothing need stand there;
# that comes in question where the next token begins no other row. The rows of types and of patterns
# are the same, but for the variables of patterns: % stands for Type and for Pattern.
TREES = {
    "%": ["%Row %Branches"],
    "%Branches": ["| %Row !alt %More", ""],
    "%More": ["| %Row !more %More", ""],
    "%Row": ["%Part %Parts"],
    "%Parts": [", %Part !seq %MoreParts", ""],
    "%MoreParts": [", %Part !more %MoreParts", ""],
    "%Prim": [
        "word !name",
        "text@ !texts",
        "~@ [<@ %Content",
        "label<@ !same %Content",
        "^@ %Excepted",
        "(<@ %Group",
        "(<@ AnyWord MoreNames )> [<@ %Content",
    ],
    "%Excepted": ["text !texts", "label<@ %Content", "(< %ExceptedList"],
    "%ExceptedList": ["text MoreTexts )> !texts", "AnyWord MoreNames )> [<@ %Content"],
    "%Group": [")> !empty", "% )> !group"],
    "%Content": ["]> !bare_elem", "% ]> !elem"],
}
RULES = {
    "Program": [
        "type@ word@ !define = Type !more Program",
        "fun@ word@ !function Param !more Params : Type !more = Expr !more Program",
        "end",
    ],
    "Param": ["(<@ val word@ !param as Type !more )> !last"],
    "Params": ["Param !more Params", ""],
    "TypeText": ["Type end"],
    **{
        nonterminal.replace("%", sort): [row.replace("%", sort) for row in rows]
        for sort in ("Type", "Pattern")
        for nonterminal, rows in TREES.items()
    },
    "TypePart": ["TypePrim Operator"],
    "PatternPart": ["val@ word@ Bound", "PatternPrim Operator"],
    "Bound": ["as< PatternPart > !val", "!bare_val"],
    "Operator": ["* !*", "+ !+", "? !?", ""],
    "MoreNames": ["| AnyWord MoreNames", ""],
    "MoreTexts": ["| text MoreTexts", ""],
    "AnyWord": ["word", *KEYWORDS],
    "Expr": ["Item Items"],
    "Items": [", Item !seq MoreItems", ""],
    "MoreItems": [", Item !more MoreItems", ""],
    "Item": [
        "text !text",
        "word@ Arguments",
        "label<@ !same ExprContent",
        "Paren",
        "match<@ Expr !match with Clause !more Clauses >",
    ],
    "ExprContent": ["]> !bare_elem", "Expr ]> !elem"],
    "Arguments": ["Paren !call MoreArguments", "!var"],
    "MoreArguments": ["Paren !more MoreArguments", ""],
    "Paren": ["(<@ ParenContent"],
    "ParenContent": [")> !empty", "Expr )> !group"],
    "Clause": ["PatternRow -> Expr !clause"],
    "Clauses": ["| Clause !more Clauses", ""],
    "Document": ["(<@ )> !empty end", "Things end"],
    "Things": ["Thing MoreThings"],
    "MoreThings": [", Thing !seq EvenMoreThings", ""],
    "EvenMoreThings": [", Thing !more EvenMoreThings", ""],
    "Thing": ["text !text", "label<@ !same ThingContent"],
    "ThingContent": ["]> !bare_elem", "(@ ) !empty ]> !elem", "Things ]> !elem"],
}
# What each nonterminal and each token is called where it is expected.
CALLED = {
    "Type": "a type",
    "TypeRow": "a type",
    "TypePart": "a type",
    "TypePrim": "a type",
    "Pattern": "a pattern",
    "PatternRow": "a pattern",
    "PatternPart": "a pattern",
    "PatternPrim": "a pattern",
    "Clause": "a pattern",
    "Expr": "an expression",
    "Item": "an expression",
    "Things": "an item",
    "Thing": "an item",
    "TypeParts": "a comma",
    "TypeMoreParts": "a comma",
    "PatternParts": "a comma",
    "PatternMoreParts": "a comma",
    "Items": "a comma",
    "MoreItems": "a comma",
    "MoreThings": "a comma",
    "EvenMoreThings": "a comma",
    "TypeBranches": "|",
    "TypeMore": "|",
    "PatternBranches": "|",
    "PatternMore": "|",
    "MoreNames": "|",
    "MoreTexts": "|",
    "Clauses": "| and a clause",
    "word": "a name",
    "AnyWord": "a label",
    "Param": "a parameter (val x as T)",
    "Params": "a parameter (val x as T)",
    "Bound": "as",
    "Program": "the next definition",
    "TypeExcepted": "a label or a text",
    "PatternExcepted": "a label or a text",
    "TypeExceptedList": "a label or a text",
    "PatternExceptedList": "a label or a text",
    "TypeGroup": ("a type", ")"),
    "TypeContent": ("a type", "]"),
    "PatternGroup": ("a pattern", ")"),
    "PatternContent": ("a pattern", "]"),
    "ExprContent": ("an expression", "]"),
    "ParenContent": ("an expression", ")"),
    "ThingContent": ("an item", "]"),
    "Document": ("an item", "()"),
    "TypeText": "a type",
    "text": "a text",
    "label": "a label",
    "end": "the end",
    "Operator": "* + or ?",
    "Arguments": "(",
    "MoreArguments": "(",
    "Paren": "(",
    ",": "a comma",
}
# What is told first where much may stand at a place.
ORDER = [
    "a type",
    "a pattern",
    "an expression",
    "an item",
    "a parameter (val x as T)",
    "a name",
    "a label",
    "a label or a text",
    "a text",
    "val",
    "as",
    "with",
    "->",
    ":",
    "=",
    "[",
    "a comma",
    "|",
    "| and a clause",
    "]",
    ")",
    "()",
    "the next definition",
    "the end",
    "(",
    "* + or ?",
]
# What goes on, by how the names of its nonterminals begin.
SORTS = {
    "Type": "type",
    "Pattern": "pattern",
    "Clause": "expression",
    "Expr": "expression",
    "Item": "expression",
    "MoreItem": "expression",
    "Paren": "expression",
    "Thing": "item",
    "MoreThing": "item",
    "EvenMoreThing": "item",
    "Document": "item",
    "->": "pattern",
}
CLOSING = {"]", ")"}
# Where something around goes on after a fault. What was skipped holds no faults, and neither do the
# next tokens, as many as this: most often they are of the same one.
GOES_ON = {"]", ")", "|", ",", "->", "with", "="}
QUIET = 3
MOST_FAULTS = 100


class Symbol(dict):
    """A symbol of the grammar: by the kind of the next token, what is done where it comes.

    That is +1 or -1 where the token opens or closes a level, whether its index is kept, the step
    after it, and the symbols that follow, the last first. Where parentheses begin a group or a list
    of labels there is a list of both, and whether it is in a pattern.

    `nothing` are the steps where nothing stands there, and None where something has to. `drop` are
    the steps that stand in for it where it is missing.
    """

    __slots__ = ("name", "nothing", "drop")


def make(kind):
    """The step that makes a node of the last token."""
    return lambda values, last, opened: values.append(Node(kind, last, last, last, []))


def from_kept(kind):
    """The step that makes a node of a kept token, which is its name."""

    def step(values, last, opened):
        values[-1] = Node(kind, values[-1], last, values[-1], [])

    return step


def from_two(kind):
    """The step that makes a node of two kept tokens: the first one, and its name."""

    def step(values, last, opened):
        name = values.pop()
        values[-1] = Node(kind, values[-1], last, name, [])

    return step


def around(kind):
    """The step that makes a node of a kept token and the node inside."""

    def step(values, last, opened):
        inner = values.pop()
        values[-1] = Node(kind, values[-1], last, None, [inner])

    return step


def named_around(kind):
    """The step that makes a node of two kept tokens and the node inside."""

    def step(values, last, opened):
        inner, name = values.pop(), values.pop()
        values[-1] = Node(kind, values[-1], last, name, [inner])

    return step


def behind(kind):
    """The step that makes a node of the node before."""

    def step(values, last, opened):
        values[-1] = Node(kind, values[-1].first, last, None, [values[-1]])

    return step


def both(kind):
    """The step that makes a node of two nodes."""

    def step(values, last, opened):
        right = values.pop()
        values[-1] = Node(kind, values[-1].first, last, None, [values[-1], right])

    return step


def more(values, last, opened):
    part = values.pop()
    values[-1].parts.append(part)
    values[-1].last = last


def reach(values, last, opened):
    values[-1].last = last


def same(values, last, opened):
    values.append(values[-1])


def call(values, last, opened):
    argument, name = values.pop(), values.pop()
    values.append(Node("call", name, last, name, [argument]))


def empty(values, last, opened):
    values[-1] = Node("empty", values[-1], last, None, [])


def close(values, last, opened):
    opened.pop()


def keep_none(values, last, opened):
    values.append(None)


def open_none(values, last, opened):
    opened.append(last)


def missing(values, last, opened):
    values.append(Node("missing", last + 1, last, None, []))


def missing_from(values, last, opened):
    """In place of a node that began with a kept token."""
    values[-1] = Node("missing", values[-1], last, None, [])


STEPS = {
    "define": from_two("typedef"),
    "function": from_two("fundef"),
    "param": from_two("param"),
    "name": make("name"),
    "text": make("text"),
    "texts": from_kept("texts"),
    "empty": empty,
    "elem": named_around("elem"),
    "bare_elem": from_two("elem"),
    "group": around("group"),
    "val": named_around("val"),
    "bare_val": from_two("val"),
    "var": from_kept("var"),
    "call": call,
    "match": around("match"),
    "clause": both("clause"),
    "seq": both("seq"),
    "alt": both("alt"),
    "*": behind("*"),
    "+": behind("+"),
    "?": behind("?"),
    "more": more,
    "last": reach,
    "same": same,
}
# What stands in for these nonterminals where they are missing: those that are in brackets close
# them.
DROPS = {
    "Excepted": (missing_from,),
    "ExceptedList": (close, missing_from),
    "AnyWord": (),
    "Group": (close, missing_from),
    "ParenContent": (close, missing_from),
    "Program": (),
    "Content": (close, STEPS["bare_elem"]),
    "ExprContent": (close, STEPS["bare_elem"]),
    "ThingContent": (close, STEPS["bare_elem"]),
}


def grammar():
    """The symbols of RULES, by their names."""
    found = {name: Symbol() for name in RULES}

    def terminal(written):
        kind, marks = re.fullmatch("(->|[^<>@]+)([<>@]*)", written).groups()
        it = found[written] = Symbol()
        it.name, it.nothing = kind, None
        it[kind] = ("<" in marks) - (">" in marks), "@" in marks, None, ()
        it.drop = (
            (open_none,) * ("<" in marks)
            + (close,) * (">" in marks)
            + (keep_none,) * ("@" in marks)
        )
        return it

    def part(written):
        if written[0] == "!" and len(written) > 1:
            return STEPS[written[1:]]
        if written == ">":
            return close
        return found[written] if written in found else terminal(written)

    def fill(name):
        """Finds what a nonterminal does with each kind of token, once for those that begin it."""
        it = found[name]
        if hasattr(it, "drop"):
            return
        it.name, it.nothing = name, None
        for row in RULES[name]:
            first, *rest = map(part, row.split() or [">"])
            if first.__class__ is not Symbol:
                it.nothing = (first, *rest) if row else ()
                continue
            if row.split()[0] in RULES:
                fill(row.split()[0])
            for kind, made in first.items():
                if made.__class__ is list:
                    it[kind] = [*(followed(each, rest) for each in made[:2]), made[2]]
                elif kind in it:
                    it[kind] = [it[kind], followed(made, rest), name[0] == "P"]
                else:
                    it[kind] = followed(made, rest)
        plain = re.sub("^(Type|Pattern)(?=.)", "", name)
        it.drop = it.nothing if it.nothing is not None else DROPS.get(plain, (missing,))

    def followed(made, rest):
        """What is done with a token, and then with what follows it in a row."""
        opens, is_kept, step, symbols = made
        if rest and rest[0].__class__ is not Symbol and not step and not symbols:
            return opens, is_kept, rest[0], tuple(reversed(rest[1:]))
        return opens, is_kept, step, (*reversed(rest), *symbols)

    for name in RULES:
        fill(name)
    return found


SYMBOLS = grammar()


def is_list(kinds, at, is_pattern):
    """Whether the parenthesis at an index begins a list of labels, and no group: that is what goes
    further. Words in a row may be both, and keywords only a list, but for the `val` of a pattern.
    """
    has_keyword = False
    while kinds[at + 1] in WORDS:
        kind = kinds[at + 1]
        if is_pattern and kind == "val" and kinds[at + 2] == "word":
            return has_keyword
        has_keyword = has_keyword or kind != "word"
        at += 2
        if kinds[at] != "|":
            return has_keyword or kinds[at] == ")" and kinds[at + 1] == "["
    return has_keyword


class Parsed:
    """What was read: its tokens, its definitions (or its one tree), and its faults in order.

    `expected` and `opened` are what may stand at the end, and what is open there: of a text that is
    read up to some place, those of the place. Of a document there need be no tree: then it is read
    up to its first fault.
    """

    def __init__(self, text, start="Program", until=None, has_tree=True):
        self.text = text
        self.tokens = text if text.__class__ is Tokens else Tokens(text)
        if self.tokens is text:
            self.text = text.text
        self.faults, self.skipped = [], []
        self.stack, self.values, self.open = [SYMBOLS[start]], [], []
        self.limit = len(self.tokens.kinds) if start == "Document" else DEEPEST
        end = len(self.tokens.kinds) if until is None else self.index_of(until)
        self.has_tree = has_tree
        self.read(end)
        self.expected, self.possible = self.may_stand(self.stack)
        self.opened = list(self.open)
        if has_tree:
            self.drop(0, end - 1)
        self.roots = self.values

    def index_of(self, at):
        """The first token that begins at an offset or behind it."""
        return min(bisect.bisect_left(self.tokens.starts, at), len(self.tokens.kinds) - 1)

    def read(self, end):
        kinds, stack, values, opened = self.tokens.kinds, self.stack, self.values, self.open
        at, limit, quiet, has_tree = 0, self.limit, -1, self.has_tree
        while at < end:
            kind, whole = kinds[at], len(stack) - 1
            top = whole
            while True:
                symbol = stack[top]
                if symbol.__class__ is Symbol:
                    found = symbol.get(kind)
                    if found is not None or symbol.nothing is None:
                        break
                top -= 1
            number = 2
            if found is not None:
                # What is on the stack above is left out here, or done.
                while whole > top:
                    above = stack[whole]
                    if above.__class__ is not Symbol:
                        if has_tree:
                            above(values, at - 1, opened)
                    elif above.nothing:
                        for step in above.nothing:
                            step(values, at - 1, opened)
                    whole -= 1
                if found.__class__ is list:
                    found = found[is_list(kinds, at, found[2])]
                opens, is_kept, step, behind = found
                if opens > 0 and len(opened) >= limit:
                    number = 3
                    del stack[top + 1 :]
                else:
                    if opens:
                        if opens > 0:
                            opened.append(at)
                        else:
                            opened.pop()
                    if is_kept and has_tree:
                        values.append(at)
                    stack[top:] = behind
                    if step and has_tree:
                        step(values, at, opened)
                    at += 1
                    continue
            if at >= quiet and len(self.faults) < MOST_FAULTS:
                expected, possible = self.may_stand(stack)
                sort = self.sort(stack)
                self.faults.append(Fault(number, at, expected, possible, list(opened), sort))
            if not has_tree:
                return
            before, at = at, self.go_on(at, end, number)
            self.skipped.append((before, at))
            quiet = at + QUIET

    @staticmethod
    def may_stand(stack):
        """What may stand next, in a person's words, and as kinds of tokens."""
        called, kinds = set(), set()
        for symbol in reversed(stack):
            if symbol.__class__ is not Symbol:
                continue
            words = CALLED.get(symbol.name, symbol.name)
            called.update([words] if words.__class__ is str else words)
            kinds.update(symbol)
            if symbol.nothing is None:
                break
        return sorted(called, key=ORDER.index), kinds

    @staticmethod
    def sort(stack):
        """What goes on: a type, a pattern, an expression, or an item of a document."""
        for symbol in reversed(stack):
            for begin, sort in SORTS.items() if symbol.__class__ is Symbol else ():
                if symbol.name.startswith(begin):
                    return sort
        return "definition"

    def drop(self, top, last):
        """Takes symbols from the stack, and puts in nodes for what is missing."""
        for symbol in reversed(self.stack[top:]):
            for step in symbol.drop if symbol.__class__ is Symbol else (symbol,):
                step(self.values, last, self.open)
        del self.stack[top:]

    def begins(self, at):
        """Whether a definition begins at a token: in column 1, or first in its line and whole."""
        kinds, tokens = self.tokens.kinds, self.tokens
        if kinds[at] not in ("type", "fun") or not at:
            return kinds[at] in ("type", "fun")
        begin = tokens.text.rfind("\n", 0, tokens.starts[at]) + 1
        if begin == tokens.starts[at]:
            return True
        sign = "=" if kinds[at] == "type" else "("
        return tokens.ends[at - 1] <= begin and kinds[at + 1 : at + 3] == ["word", sign]

    def takes(self, kind):
        """The place on the stack of what goes on with a token; None if nothing does. A bar and a
        comma don't go out of brackets."""
        for top in range(len(self.stack) - 1, -1, -1):
            symbol = self.stack[top]
            if symbol.__class__ is not Symbol:
                continue
            if kind in symbol and symbol[kind].__class__ is tuple:
                return top
            if (kind == "|" or kind == ",") and not CLOSING.isdisjoint(symbol):
                return None
        return None

    def go_on(self, at, end, number):
        """Goes on at the first token, from an index on, that belongs to something around."""
        kinds, depth = self.tokens.kinds, 0
        while at < end:
            kind = kinds[at]
            if self.stack and self.stack[0].name == "Program" and self.begins(at):
                self.drop(1, at - 1)
                return at
            if kind == "end":
                break
            if kind == "label" or kind == "(" or kind == "[":
                depth += 1
            elif depth:
                depth -= kind in CLOSING
            elif kind in GOES_ON and number == 2:
                top = self.takes(kind)
                if top is not None:
                    self.drop(top + 1, at - 1)
                    return at
            at += 1
        bottom = 1 if self.stack and self.stack[0].name == "Program" else 0
        self.drop(bottom, at - 1)
        return end

    def first_fault(self):
        """The number and the place of the first fault; None if there is none."""
        if not self.faults:
            return None
        fault = self.faults[0]
        return (fault.number, *self.tokens.place(self.tokens.starts[fault.token]))

    def range(self, node):
        """Where a node begins and ends in the text."""
        starts, ends = self.tokens.starts, self.tokens.ends
        return (
            (starts[node.first], ends[node.last])
            if node.last >= node.first
            else (starts[min(node.first, len(starts) - 1)],) * 2
        )

    def word(self, index):
        return self.tokens.word(index) if index is not None else None


def class_named(names, is_except):
    """The class of these names, or of all but these."""
    return tuple(sorted(set(names), key=str.encode)), is_except


def class_of(tokens, node):
    """The class of labels or texts of a node: its names in order, and whether all but these are
    meant."""
    kinds, last = tokens.kinds, node.last if node.kind == "texts" else node.name
    is_except = kinds[node.first] in ("^", "~")
    if node.kind == "texts":
        names = {
            unescaped(tokens.spelling(it))
            for it in range(node.first, last + 1)
            if kinds[it] == "text"
        }
    elif last is None:
        return (), True
    else:
        names = {
            tokens.word(it)
            for it in range(node.first, last + 1)
            if kinds[it] in WORDS or kinds[it] == "label"
        }
    return class_named(names, is_except)


# Types in the form in which their meaning is told: ("seq", parts), ("alt", parts), ("*", T), ("+",
# T), ("?", T), ("name", N), ("elem", class, T), ("text", class); of patterns also ("val", node, T).
# The empty type is a sequence of no parts, and a sequence in a sequence gives its parts to the
# outer one.
EMPTY = ("seq", ())
ALL = ((), True)
ANY = ("*", ("alt", (("elem", ALL, ("name", "Any")), ("text", ALL))))


def joined(kind, parts):
    """A sequence or an alternative: parts of its own kind are merged into it, and one part alone is
    that part."""
    flat = tuple(inner for part in parts for inner in (part[1] if part[0] == kind else (part,)))
    return flat[0] if len(flat) == 1 else (kind, flat)


def nodes_of(root):
    """A node and all within it, each before its parts."""
    waiting = [root]
    while waiting:
        node = waiting.pop()
        yield node
        waiting += reversed(node.parts)


def type_of(parsed, root):
    """The type or the pattern that a node stands for. A bare variable is one of `Any`."""
    tokens, made = parsed.tokens, []
    for node in reversed([*nodes_of(root)]):
        kind, count = node.kind, len(node.parts)
        inner = [made.pop() for _ in range(count)]
        if kind == "name":
            word = tokens.spelling(node.first)
            it = ("text", ALL) if word == "String" else ("name", word)
        elif kind == "elem":
            it = "elem", class_of(tokens, node), inner[0] if inner else EMPTY
        elif kind in ("seq", "alt"):
            it = joined(kind, inner)
        elif kind == "group":
            it = inner[0]
        elif kind == "val":
            it = "val", node, inner[0] if inner else ("name", "Any")
        elif kind == "texts":
            it = "text", class_of(tokens, node)
        else:
            it = (kind, inner[0]) if kind in ("*", "+", "?") else EMPTY
        made.append(it)
    return made[0]


class Malformed(Exception):
    """A text that hasn't the form that is wanted."""


def type_text(text):
    """The type that a text spells."""
    parsed = Parsed(text, "TypeText")
    if parsed.faults:
        raise Malformed(f"{text[:40]} is no type")
    return type_of(parsed, parsed.roots[0])


def definitions(text):
    """The types that a program defines, and `Any`: each once, and all that they use is there."""
    parsed = text if text.__class__ is Parsed else Parsed(text)
    if parsed.faults:
        line, column = parsed.first_fault()[1:]
        raise Malformed(f"{line}:{column}: no program goes on here")
    found, used, tokens = {"Any": ANY}, set(), parsed.tokens
    for node in parsed.roots:
        if node.kind == "typedef":
            name = tokens.spelling(node.name)
            if name in found or name == "String":
                raise Malformed(f"the type {name} isn't defined once")
            found[name] = type_of(parsed, node.parts[0])
            used.update(
                tokens.spelling(it.first) for it in nodes_of(node.parts[0]) if it.kind == "name"
            )
    missing_names = used - set(found) - {"String"}
    if missing_names:
        raise Malformed(f"the type {min(missing_names)} is not defined")
    return found


class Entity:
    """A type, a function or a variable: where it is defined, where it is used, and in which tokens
    it can be, None for everywhere."""

    __slots__ = ("space", "role", "name", "definitions", "uses", "node", "scope")

    def __init__(self, space, role, name, definitions, node, scope=None):
        self.space, self.role, self.name, self.node = space, role, name, node
        self.definitions, self.uses, self.scope = definitions, [], scope


class Names:
    """What the names of a program stand for. The first definition of a name counts; a variable that
    several branches of a pattern bind is one."""

    def __init__(self, parsed):
        self.parsed, self.tokens = parsed, parsed.tokens
        self.types = {it: Entity("type", "type", it, [], None) for it in PREDEFINED}
        self.functions, self.variables, self.at, self.unknown, self.twice = {}, [], {}, [], []
        for node in parsed.roots:
            if node.kind == "typedef":
                self.define(self.types, "type", node)
            elif node.kind == "fundef":
                self.define(self.functions, "function", node)
        for node in parsed.roots:
            if node.kind == "typedef":
                self.use_types(node)
            elif node.kind == "fundef":
                self.look_at(node)
        self.entities = [*self.types.values(), *self.functions.values(), *self.variables]

    def define(self, space, role, node):
        if node.name is None:
            return
        word = self.tokens.spelling(node.name)
        if word in space:
            entity = space[word]
            self.twice.append((node.name, entity.definitions[0] if entity.definitions else None))
            self.at[node.name] = Entity(role, role, word, [node.name], node)
            return
        self.at[node.name] = space[word] = Entity(role, role, word, [node.name], node)

    def use(self, space, entity, token):
        if entity is None:
            self.unknown.append((space, token))
        else:
            entity.uses.append(token)
            self.at[token] = entity

    def use_types(self, root):
        for node in nodes_of(root):
            if node.kind == "name":
                self.use("type", self.types.get(self.tokens.spelling(node.first)), node.first)

    def variable(self, role, node, scope):
        word = self.tokens.spelling(node.name)
        entity = Entity("variable", role, word, [node.name], node, scope)
        self.variables.append(entity)
        self.at[node.name] = entity
        return entity

    def look_at(self, function):
        """The uses in a function. What is in scope is a chain of tables, the innermost first."""
        table = {}
        parts = [it for it in function.parts if it.kind != "param"]
        for node in function.parts:
            if node.kind == "param":
                self.use_types(node)
                if node.name is not None:
                    word = self.tokens.spelling(node.name)
                    if word in table:
                        self.twice.append((node.name, table[word].definitions[0]))
                        self.variable("parameter", node, None)
                    else:
                        table[word] = self.variable(
                            "parameter", node, (function.first, function.last)
                        )
        waiting = [(part, (table, None)) for part in parts[1:]]
        if parts:
            self.use_types(parts[0])
        while waiting:
            node, scope = waiting.pop()
            if node.kind == "clause":
                table = self.bound(node)
                waiting.append((node.parts[1], (table, scope)))
                continue
            if node.kind == "var":
                word, around = self.tokens.spelling(node.first), scope
                while around and word not in around[0]:
                    around = around[1]
                self.use("variable", around[0][word] if around else None, node.first)
            elif node.kind == "call":
                self.use("function", self.functions.get(self.tokens.spelling(node.name)), node.name)
            waiting += [(part, scope) for part in reversed(node.parts)]

    def bound(self, clause):
        """The variables that a clause's pattern binds."""
        table = {}
        self.use_types(clause.parts[0])
        for node in nodes_of(clause.parts[0]):
            if node.kind == "val" and node.name is not None:
                word = self.tokens.spelling(node.name)
                if word in table:
                    table[word].definitions.append(node.name)
                    self.at[node.name] = table[word]
                else:
                    table[word] = self.variable("variable", node, (clause.first, clause.last))
        return table

    def in_scope(self, token):
        """The variables that can be used at a token, the innermost first."""
        found = {}
        for entity in self.variables:
            if entity.scope and entity.scope[0] <= token <= entity.scope[1] + 1:
                if entity.name not in found or entity.scope[0] >= found[entity.name].scope[0]:
                    found[entity.name] = entity
        return sorted(found.values(), key=lambda it: -it.scope[0])
