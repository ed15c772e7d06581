"""What is said of a fault beside its own words: what was expected, what is open, and what the slip
looks like that people make who come from elsewhere. docs/reading-answers.md says more of each."""
import re
import time

import notation
import shared
import shown
from shared import near

MOST = 4
# What is said of faults that need no look at the text.
OF_FAULT = {
    3: "at most 256 brackets and parentheses may be open at a time",
    10: "outside of labels a type may use itself only at the end of a sequence, "
    "and not under * or +",
    11: "an item has to stand before it",
    12: "this document may come here, and no clause takes it",
    13: "the argument may be this document, and the parameter's type hasn't it",
    14: "the function's body may be this document, and the result's type hasn't it",
}
ONE_FILE = "a program is one file: put the definitions into it"
BEGINS = "a definition begins with type or fun"
LETTERS = "labels and names have letters, digits and _ alone, and a letter or _ first"
COMMENT = "a comment is written (* .. *)"
BOUND = "the variable is bound here"
# Words that have a meaning elsewhere, and none here.
ELSEWHERE = {
    "let": "there is no let: match E with val x -> F names a value",
    "if": "there is no if: a match tells cases apart",
    "then": "there is no if: a match tells cases apart",
    "else": "there is no if: a match tells cases apart",
    "for": "there is no loop: a function that calls itself goes over a row",
    "foreach": "there is no loop: a function that calls itself goes over a row",
    "while": "there is no loop: a function that calls itself goes over a row",
    "case": "cases are written match E with P -> F | Q -> G",
    "switch": "cases are written match E with P -> F | Q -> G",
    "return": "a function's body is an expression: its value needs no return",
    **dict.fromkeys(("import", "include", "open", "use", "using", "require", "module"), ONE_FILE),
    **dict.fromkeys(
        (
            "def",
            "function",
            "fn",
            "define",
            "start",
            "namespace",
            "default",
            "grammar",
            "interface",
            "class",
            "struct",
            "enum",
            "data",
            "datatype",
        ),
        BEGINS,
    ),
    "element": "an element is written label[..]",
    "attribute": "an attribute is an element as others are: label[String]",
    "empty": "nothing is written ()",
    "mixed": "mixed content is written (String|T)*",
    "text": "a text is String",
}
# Names of types that mean one here.
TYPES = {
    **dict.fromkeys(
        ("string", "text", "PCDATA", "token", "Text", "str", "CDATA"), "a text is String"
    ),
    **dict.fromkeys(
        (
            "int",
            "integer",
            "Int",
            "Integer",
            "number",
            "Number",
            "bool",
            "Bool",
            "boolean",
            "float",
            "double",
            "decimal",
            "date",
        ),
        "texts are all of one type, String",
    ),
    **dict.fromkeys(("_", "any", "ANY", "anything"), "whatever comes is Any"),
    **dict.fromkeys(("empty", "EMPTY", "Empty", "unit", "void"), "nothing is written ()"),
}
# Characters that begin no token.
CHARACTERS = {
    ";": "nothing ends a definition or divides items but a comma",
    "'": "a text has double quotes",
    "\u201c": 'a text has straight quotes, "',
    "\u201d": 'a text has straight quotes, "',
    "&": "there is no &: (A,B)|(B,A), and for many docs/language.md has a section on any order",
    "@": "there are no attributes: one is an element as others are, such as id[String]",
    "$": "a variable is written without $",
    "/": "there are no paths: a match takes a document apart",
    "!": "a class without a label is written ^label[..]",
    "\\": "there is no function without a name: write fun",
    "\ufeff": "the file begins with a byte order mark: save it without",
    "\u00a0": "this blank is none of the notation: write a plain one",
}


def listed(words):
    """The words with `or` before the last; of many the first."""
    words = list(words)[:MOST]
    return " or ".join([", ".join(words[:-1]), words[-1]] if len(words) > 1 else words)


def place(tokens, at):
    return "{}:{}".format(*tokens.place(at))


def open_since(parsed, fault):
    """What is open at a fault, the innermost first, and of several also the outermost."""
    tokens, kinds = parsed.tokens, parsed.tokens.kinds
    shown = [
        it
        for it in fault.opened
        if kinds[it] != "as" and (kinds[it] != "match" or "with" in fault.expected)
    ]
    if not shown:
        return ""
    text = f"{tokens.spelling(shown[-1])} is open since {place(tokens, tokens.starts[shown[-1]])}"
    outer = shown[0]
    if len(shown) > 1:
        text += f", {tokens.spelling(outer)} since {place(tokens, tokens.starts[outer])}"
    return text


def expected(parsed, fault):
    """What was expected at a fault, and what is open there."""
    # (what may stand nearly everywhere says little)
    words = [it for it in fault.expected if it not in ("* + or ?", "(")] or fault.expected
    if fault.token == 0:
        words = ["type or fun" if it == "the next definition" else it for it in words]
    text = f"expected {listed(words)}" if words else ""
    return "; ".join(filter(None, (text, open_since(parsed, fault))))


def run_over(parsed, fault):
    """A text or a comment before the fault that may have taken in more than was meant."""
    tokens, text = parsed.tokens, parsed.text
    begin = next(
        (
            it
            for it in range(fault.token - 1, -1, -1)
            if tokens.kinds[it] in ("type", "fun") and parsed.begins(it)
        ),
        0,
    )
    at = tokens.starts[fault.token]
    for start, end in reversed(tokens.comments):
        # (one that ends by the * of a type, and behind the fault there is another end of a comment)
        if end <= at and (
            tokens.starts[begin] <= start or not begin or start >= tokens.ends[begin - 1]
        ):
            later, next_begin = text.find("*)", at), text.find("(*", at)
            is_trap = re.search(r"[\w)\]]\*\)$", text[start:end])
            its_place = f"the comment that begins at {place(tokens, start)} ends at "
            its_place += place(tokens, end - 2)
            if is_trap and (
                later >= 0 and not 0 <= next_begin < later or "(*" in text[start + 2 : end]
            ):
                return f"{its_place}, by the first *) in it: write a blank between * and )"
            if is_trap and re.search(r"\n\s*(type|fun)\s", text[start:end]):
                return f"{its_place}, by the *) of a type: it wasn't closed before"
            if "(*" in text[start + 2 : end - 1]:
                return f"{its_place}: comments don't nest, or it wasn't closed"
    for index in range(fault.token - 1, begin - 1, -1):
        if tokens.kinds[index] == "text" and "\n" in tokens.spelling(index):
            return (
                f"the text that begins at {place(tokens, tokens.starts[index])} goes on over "
                "lines: "
                "its quote may not be closed"
            )
    if fault.token in tokens.broken and tokens.kinds[fault.token] == "broken" and text[at] == '"':
        # The quote that is left over is often the last one of a line that lacks one further up.
        for index in range(fault.token - 1, begin - 1, -1):
            if tokens.kinds[index] == "text" and "\n" in tokens.spelling(index):
                return f"a quote may be missing from {place(tokens, tokens.starts[index])} on"
    return None


def of_broken(parsed, fault):
    """What is said of what is no token."""
    tokens, text, at = parsed.tokens, parsed.text, parsed.tokens.starts[fault.token]
    why, here, before = tokens.broken[fault.token], text[at : at + 40], text[:at]
    previous = tokens.spelling(fault.token - 1) if fault.token else ""
    is_near = bool(fault.token) and tokens.ends[fault.token - 1] == at
    if why == "open comment":
        return "the comment that begins here isn't closed"
    if why == "open text":
        return "the text that begins here isn't closed"
    if why == "escape":
        wrong = re.search(r'\\[^"\\nt]', text[at:])
        return (
            f'{wrong[0] if wrong else "this"} is no escape: there are \\" \\\\ \\n \\t, '
            "and a backslash is written \\\\"
        )
    if here.startswith(("//", "/*", "--")):
        return COMMENT + (
            ", and there are no paths: a match takes a document apart"
            if here.startswith("//") and is_near
            else ""
        )
    if here.startswith("<!--"):
        return COMMENT
    if re.match(r"</?[\w:!?]", here):
        if is_near and previous and tokens.kinds[fault.token - 1] == "word":
            return "a type has no parameters: define one for each"
        return "this looks like XML: an element is written a[..]"
    if here[0] in "<>" and before.rstrip().endswith(("=", "-")) and here[0] == ">":
        return "a clause has ->, not =>"
    if here[0] in "<>":
        return 'texts can\'t be compared: a pattern such as "x" tells one'
    if here.startswith("#PCDATA"):
        return "a text is String"
    if re.match(r"#\s*(include|import)", here):
        return ONE_FILE
    if here[0] == "#":
        return COMMENT
    if re.match(r"\{\s*\d", here):
        return "how often is written out: A,A?,A? is one to three, and there are * + ?"
    if here[0] in "{}":
        return "an element is written label[..], and what belongs together in parentheses"
    if here[0].isdigit():
        if re.match(r"\d+[A-Za-z_]\w*", here) or re.match(r"\d+\[", here):
            return LETTERS
        number = re.match(r"[\d.]*\d", here)[0]
        return f'there are no numbers: a text has quotes, "{number}"'
    if re.match(r"-\s*\d", here) and not is_near:
        return "there are no numbers: a text has quotes"
    if (
        here[0] == "-"
        and is_near
        and re.match(r"-\w", here)
        and tokens.kinds[fault.token - 1] == "word"
    ):
        return LETTERS
    if here[0] == "-":
        return "there is no difference of types: xduce minus shows one"
    if here.startswith(".."):
        return "a row is written T*, and whatever comes Any"
    if here[0] == ".":
        return LETTERS if re.match(r"\.\w", here) else "nothing ends a definition"
    if here[0] in CHARACTERS:
        return CHARACTERS[here[0]]
    if here[0].isalpha():
        return "labels and names have ASCII letters, digits and _ alone"
    return f"{visible(here[0])} is no sign of the notation"


def of_token(parsed, fault, names):
    """What is said of a token that can't stand where it does."""
    tokens, kinds, index = parsed.tokens, parsed.tokens.kinds, fault.token
    kind, at, text = kinds[index], tokens.starts[index], parsed.text
    here = tokens.spelling(index)
    before = kinds[max(index - 3, 0) : index][::-1] + ["", "", ""]
    word = tokens.spelling(index - 1) if index else ""
    can, behind = fault.kinds, kinds[index + 1 : index + 3] + ["end", "end"]
    for each in (word, here):
        if (
            each in ELSEWHERE
            and "word" in (kind, before[0])
            and not (each == here and kind != "word")
        ):
            is_top = each in names.types or each in names.functions
            if not is_top and (each == here or before[0] == "word"):
                return ELSEWHERE[each] if each != "let" or fault.sort == "expression" else BEGINS
    begins_line = not text[text.rfind("\n", 0, at) + 1 : at].strip()
    if (
        kind == "word"
        and begins_line
        and behind[0] == "word"
        and kinds[index + 2 : index + 3] in (["("], ["="])
    ):
        return " ".join([BEGINS] + [f"(did you mean {it}?)" for it in near(here, ["type", "fun"])])
    if kind == "text" and before[0] == "word" and tokens.ends[index - 1] == at:
        return f"the quote before {word} may be missing"
    if (
        "->" in can
        and kind in ("word", "label", "text", "(", "match")
        and (begins_line or before[0] == "=")
    ):
        return "a clause has -> between its pattern and its expression"
    if "with" in can and kind in ("word", "label", "text", "(", "~", "^", "val"):
        return "with stands between what is matched and the first clause"
    if kind == "with" and can != {"word"}:
        return "with belongs to a match: match E with P -> F"
    if (
        kind == "->"
        and fault.sort == "expression"
        and any(kinds[it] == "match" for it in fault.opened)
    ):
        return "each further clause begins with |"
    if kind == "[" and before[0] == "word" and tokens.ends[index - 1] < at:
        return "a label is directly followed by its ["
    if kind == "[":
        return (
            "an element has a label before its [, and what belongs together stands in parentheses"
        )
    if "val" in can and len(can) == 1:
        if kind == ")":
            return "a function has at least one parameter: (val x as T)"
        name = here if kind == "word" else "x"
        type_ = (
            tokens.spelling(index + 2)
            if kind == "word" and behind[0] in ("as", ":") and behind[1] in ("word",)
            else "T"
        )
        return f"a parameter is written (val {name} as {type_})"
    if kind == "=" and before[0] == "=" or kind == "=" and before[0] == ":":
        return "a definition has one =: type A = .."
    if kind == ":" and before[0] == "word" and before[1] == "val":
        return "a type stands after as: val x as T"
    if kind == ":" and before[1] == "type":
        return "a type is defined by =: type A = .."
    if (
        kind == ":"
        and re.match(r":\w", text[at : at + 2])
        and before[0] == "word"
        and tokens.ends[index - 1] == at
    ):
        return LETTERS
    if kind == "=" and before[0] == ")" and ":" in can:
        return "a function says the type of its result: (val x as T) : T ="
    if kind == "=" and text.startswith(">", tokens.ends[index]):
        return "a clause has ->, not =>"
    if kind == "as" and before[0] == "word":
        other = tokens.spelling(index + 1) if behind[0] == "word" else "T"
        if word in names.types and other not in names.types:
            return f"a variable stands before its type: val {other} as {word}"
        return f"a variable has val before it: val {word} as {other}"
    if kind == "as" and fault.sort == "pattern" and index:
        is_short = before[0] in ("*", "+", "?") and before[1] == "word"
        type_ = f"{tokens.spelling(index - 2)}{word}" if is_short else "T"
        other = tokens.spelling(index + 1) if behind[0] == "word" else "x"
        return f"a variable stands before its type: val {other} as {type_}"
    if (
        before[0] == "word"
        and before[1] == "val"
        and kind in ("word", "label", "(", "text", "~", "^")
    ):
        return f"as is missing: val {word} as {here}{']' if kind == 'label' else ''}"
    if kind == "val" and "a type" in fault.expected:
        if before[0] == "," and fault.opened and kinds[fault.opened[-1] + 1] == "val":
            return "each parameter has parentheses of its own: (val x as A) (val y as B)"
        return "a type binds no variables: val stands in patterns and before parameters"
    if kind in notation.KEYWORDS and "word" in can and len(can) <= 2:
        return f"{here} is a keyword and can't be a name"
    if kind == "|" and before[0] in ("with", "="):
        return "no | stands before the first one"
    if kind == "|" and "->" in can:
        return (
            "in a match | begins a clause: a pattern with a choice at its top stands in parentheses"
        )
    if kind in ("type", "fun", "end") and before[0] in (",", "|"):
        return f"after {'the comma' if before[0] == ',' else before[0]} a part is missing"
    if kind in ("]", ")") and before[0] in (",", "|"):
        return f"after {'the comma' if before[0] == ',' else before[0]} a part is missing"
    if kind == ",":
        return (
            "before the comma a part is missing"
            if before[0] in (",", "[", "(", "label", "|")
            else None
        )
    if kind in ("*", "+", "?") and before[0] in ("*", "+", "?") and not fault.sort == "expression":
        return f"one of * + ? stands after a part, and more need parentheses: (T{before[0]}){kind}"
    if fault.sort == "expression" and kind in ("+", "^"):
        return "there is nothing that joins two texts to one: items stand in a row, with a comma"
    if fault.sort == "expression" and kind in ("*", "?"):
        return f"{kind} belongs to types and patterns, and an expression has no operators"
    if kind in ("+", "*", "?") and "a type" in fault.expected:
        return f"{kind} stands behind what it repeats: T{kind}"
    if kind in ("]", ")") and not fault.opened:
        return f"nothing is open that this {kind} closes"
    if kind in ("]", ")") and "a comma" in fault.expected:
        closed = "]" if kind == ")" else ")"
        if closed in can:
            return f"{closed} has to come first"
    if (
        fault.sort == "expression"
        and kind in ("word", "text", "label")
        and before[0] == "word"
        and "(" in can
    ):
        if word in names.functions or kind == "word":
            shown = f"{here}..]" if kind == "label" else here
            return (
                f"an argument stands in parentheses, {word}({shown}), "
                "and items have commas between them"
            )
    begins_part = kind in ("word", "label", "text", "(", "~", "^", "val", "match")
    if begins_part and "," in can and before[0] in ("]", ")", "text", "word", "*", "+", "?"):
        shown = here if len(here) < 20 else kind
        return f"items have commas between them: one is missing before {shown}"
    if kind == "->" and "=" in can:
        return "the type of a function's result stands after :"
    if kind == "->" and not fault.opened:
        return "-> stands in the clauses of a match"
    if kind == "text" and "a type" not in fault.expected and "," not in can:
        return "a text can't stand here"
    if kind == "word" and fault.expected == ["the next definition"]:
        return BEGINS
    return None


def is_document(text):
    parsed = notation.Parsed(text, "Document")
    return not parsed.faults


def syntax(parsed, fault, names):
    """What is said of a slip of syntax, line by line."""
    if fault.number == 3:
        return [OF_FAULT[3]]
    tokens, index = parsed.tokens, fault.token
    found = []
    if index not in tokens.broken:
        found.append(expected(parsed, fault))
    over = run_over(parsed, fault)
    if over and not (
        index in tokens.broken
        and tokens.broken[index] == "character"
        and parsed.text[tokens.starts[index]] in "\ufeff"
    ):
        found.append(over)
        if index in tokens.broken and tokens.broken[index] != "character":
            return found
    hint = of_broken(parsed, fault) if index in tokens.broken else of_token(parsed, fault, names)
    if hint and not (over and hint.startswith("items have commas")):
        found.append(hint)
    if fault is parsed.faults[0] and index < 2 and is_document(parsed.text):
        found.append("this is a document, and no program: FILE stands before TYPE and DOC")
    return found


LINE = re.compile(r"(\d+):(\d+): ((?:fault|warning) (\d+): .*)")
# The most clauses of a function that are asked about, one by one, and the seconds for all of a
# text.
MOST_CLAUSES = 60
SECONDS = 10


class Told:
    """A line of `check`, or a further fault of syntax: its number (0 of a warning), where it begins
    and ends, its words, what is said beside them, other places that matter, with what is said of
    them, and what may be written in its stead, each with its begin and its end."""

    __slots__ = ("number", "start", "end", "message", "hints", "related", "mends", "is_further")

    def __init__(self, number, start, end, message, is_further=False):
        self.number, self.start, self.end, self.message = number, start, end, message
        self.hints, self.related, self.mends, self.is_further = [], [], [], is_further


class Explainer:
    """Explains what `check` answered of a text. Where `ask` is given, it answers commands about
    programs, as (status, output) of the command's name, a program's text, and further words."""

    def __init__(self, text, ask=None, parsed=None):
        self.text, self.ask, self.parsed = text, ask, parsed or notation.Parsed(text)
        self.tokens, self.until = self.parsed.tokens, time.monotonic() + SECONDS
        self.names = notation.Names(self.parsed)

    def told(self, output):
        """What is told of the lines of an answer."""
        found = []
        for line in output.splitlines():
            match = LINE.fullmatch(line)
            if match:
                found.append(self.of_line(match))
        if len(found) == 1 and found[0].number in (2, 3) and found[0].start >= 0:
            found += self.further(found[0].start)
        return found

    def of_line(self, match):
        line, column, message, number = int(match[1]), int(match[2]), match[3], int(match[4])
        at = self.tokens.offset(line, column)
        is_warning = message.startswith("warning")
        index = self.tokens.index_at(at)
        end = max(self.tokens.ends[index], at) if self.tokens.starts[index] <= at else at
        told = Told(0 if is_warning else number, at, end, message)
        if is_warning:
            self.of_warning(told, index)
        elif number == 2 or number == 3:
            fault = next(
                (it for it in self.parsed.faults if self.tokens.starts[it.token] == at), None
            )
            told.hints = syntax(self.parsed, fault, self.names) if fault else []
        elif number == 1:
            told.hints = ["save the file as UTF-8, as iconv -f latin1 -t utf-8 does"]
        else:
            self.of_names(told, number, index)
        return told

    def further(self, first):
        """The faults of syntax behind the first one."""
        for fault in self.parsed.faults:
            start = self.tokens.starts[fault.token]
            if start > first:
                message = f"further: {'syntax' if fault.number == 2 else 'nested too deep'}"
                told = Told(fault.number, start, self.tokens.ends[fault.token], message, True)
                told.hints = syntax(self.parsed, fault, self.names)
                yield told

    def place(self, index):
        return self.tokens.starts[index]

    def of_warning(self, told, index):
        """Which clause before takes the documents of one that is never reached, by programs that
        have only one of those before it."""
        if not self.may_ask():
            return
        match = next(
            (
                it
                for it in reversed([*self.around(index)])
                if it.kind == "match"
                and any(
                    part.kind == "clause" and part.parts[0].first <= index <= part.parts[0].last
                    for part in it.parts[1:]
                )
            ),
            None,
        )
        if not match:
            return
        clauses = [it for it in match.parts[1:] if it.kind == "clause"]
        number = next(at for at, it in enumerate(clauses) if it.first <= index <= it.last)
        begin, (start, _) = self.parsed.range(clauses[0])[0], self.parsed.range(clauses[number])
        end = self.parsed.range(clauses[number].parts[0])[1]
        if number > MOST_CLAUSES:
            return
        for other in (None, *clauses[:number]):
            kept = f"{self.text[slice(*self.parsed.range(other))]} | " if other else ""
            changed = self.text[:begin] + kept + self.text[start:]
            at, tokens = begin + len(kept), notation.Tokens(changed)
            for line in self.ask("check", changed)[1].splitlines():
                found = re.fullmatch(r"(\d+):(\d+): warning 1: .*", line)
                if found and at <= tokens.offset(int(found[1]), int(found[2])) < at + end - start:
                    if other:
                        told.related.append(
                            (self.place(other.first), "this clause takes all that could come to it")
                        )
                    else:
                        told.hints.append("what stands after match can't be what its pattern takes")
                    return
        told.hints.append("the clauses before it together take all that could come to it")

    def around(self, index):
        """The nodes that a token is in, the outermost first."""
        for root in self.parsed.roots:
            if root.first <= index <= root.last:
                yield from (it for it in notation.nodes_of(root) if it.first <= index <= it.last)

    def of_names(self, told, number, index):
        word, kinds, names = self.tokens.word(index), self.tokens.kinds, self.names
        if number == 4:
            if word in notation.PREDEFINED:
                told.hints.append("String and Any are defined from the start")
            first = next((first for second, first in names.twice if second == index), None)
            if first is not None:
                told.related.append((self.place(first), "the first one stands here"))
        elif number == 5:
            known = {it for it, entity in names.types.items()}
            self.of_near(told, word, known)
            if word in TYPES and word not in names.types:
                told.hints = [TYPES[word]]
            elif not told.hints:
                is_content = kinds[index - 1] in ("label", "[", "|", ",", "(")
                told.hints.append(
                    f"an element is written {word}[]" + (f', a text "{word}"' if is_content else "")
                )
            if word in names.functions:
                told.hints.append(f"{word} is a function")
            self.in_comment(told, "type", word)
        elif number == 6:
            self.of_near(told, word, names.functions)
            if word in names.types:
                told.hints.append(f"{word} is a type")
            if word in ELSEWHERE:
                told.hints = [ELSEWHERE[word]]
            elif not told.hints and word not in names.types:
                told.hints.append(f"an element is written {word}[..]")
            self.in_comment(told, "fun", word)
        elif number == 7:
            scope = {it.name for it in names.in_scope(index)}
            self.of_near(told, word, scope)
            if word in names.functions:
                told.hints.append(f"{word} is a function: a call is {word}(..)")
            elif word in names.types:
                told.hints.append(f"{word} is a type, and stands in patterns")
            if word in ELSEWHERE and word != "text":
                told.hints = [ELSEWHERE[word]]
            elif not told.hints:
                told.hints.append(f'an element is written {word}[], a text "{word}"')
            if any(it.name == word for it in names.variables) and word not in scope:
                told.hints.append(f"a variable {word} stands in another function or clause")
        elif number == 8:
            self.of_arguments(told, index)
        elif number == 9:
            self.of_linearity(told, index)
        elif number in OF_FAULT:
            told.hints.append(OF_FAULT[number])
            if number == 14:
                self.of_result(told)
            elif number == 13:
                self.of_argument(told)

    def in_comment(self, told, keyword, word):
        """Tells of a definition that a comment has taken in."""
        for start, end in self.tokens.comments:
            if re.search(rf"^\s*{keyword}\s+{re.escape(word)}\b", self.text[start + 2 : end], re.M):
                told.hints = [
                    f"a comment has {keyword} {word} in it: it may not be closed where it should be"
                ]
                told.related.append((start, "the comment begins here"))
                return

    @staticmethod
    def nearest(word, known):
        found = near(word, known)
        return [f"did you mean {' or '.join(found)}?"] if found else []

    def of_near(self, told, word, known):
        told.mends = [(it, told.start, told.start + len(word)) for it in near(word, known)]
        told.hints += self.nearest(word, known)

    def node_at(self, index, kind):
        """The node of a kind whose name is a token."""
        for root in self.parsed.roots:
            if root.first <= index <= root.last:
                for node in notation.nodes_of(root):
                    if node.kind == kind and node.name == index:
                        return node
        return None

    def of_arguments(self, told, index):
        node, entity = self.node_at(index, "call"), self.names.at.get(index)
        if not node or not entity:
            return
        wanted = [it for it in entity.node.parts if it.kind == "param"]
        told.related.append((self.place(entity.node.name), "its parameters stand here"))
        given = [it.parts[0] if it.kind == "group" else it for it in node.parts]
        if len(given) == 1 and given[0].kind == "seq" and len(given[0].parts) == len(wanted):
            groups = "".join(f"({self.text_of(it)})" for it in given[0].parts)
            told.hints.append(
                f"each argument has parentheses of its own: {self.tokens.word(index)}{groups}"
            )
        elif len(given) < len(wanted):
            told.hints.append("each argument has parentheses of its own: f(x)(y)")

    def text_of(self, node):
        start, end = self.parsed.range(node)
        text = " ".join(self.text[start:end].split())
        return text if len(text) <= 40 else f"{text[:38]}.."

    def of_linearity(self, told, index):
        """Why an occurrence of a variable is wrong: what stands around it in its pattern tells."""
        word, around = self.tokens.word(index), []
        clause = None
        for root in self.parsed.roots:
            if root.first <= index <= root.last:
                for node in notation.nodes_of(root):
                    if node.kind == "clause" and node.parts[0].first <= index <= node.parts[0].last:
                        clause = node
        if not clause:
            return
        for node in notation.nodes_of(clause.parts[0]):
            if node.first <= index <= node.last:
                around.append(node)
        for node in around:
            if node.kind in ("*", "+", "?"):
                told.hints.append(
                    f"under {node.kind} it could be bound more than once, or never"
                    if node.kind != "?"
                    else "under ? it might not be bound"
                )
                inner = around[-1].parts[0] if around[-1].parts else None
                type_ = self.text_of(inner) if inner else "Any"
                type_ = f"({type_})" if inner and inner.kind in ("seq", "alt") else type_
                told.hints.append(
                    "to have the whole row, put the variable around it: "
                    f"val {word} as {type_}{node.kind}"
                )
                return
        others = [
            it
            for it in notation.nodes_of(clause.parts[0])
            if it.kind == "val"
            and it.name is not None
            and self.tokens.word(it.name) == word
            and it.name < index
        ]
        for other in others:
            if not any(
                node.kind == "alt"
                and not any(part.first <= other.name and index <= part.last for part in node.parts)
                and node.first <= other.name
                for node in around
            ):
                told.hints.append(f"the pattern binds {word} twice: take two names")
                told.related.append((self.place(other.name), "it is bound here, too"))
                return
        for node in around:
            if node.kind == "alt":
                for part in node.parts:
                    bound = {
                        self.tokens.word(it.name)
                        for it in notation.nodes_of(part)
                        if it.kind == "val" and it.name
                    }
                    if word not in bound:
                        told.hints.append(f"each branch has to bind {word}, or none")
                        told.related.append(
                            (self.place(part.first), f"this branch doesn't bind {word}")
                        )
                        return

    def function_at(self, at):
        """The function that an offset is in."""
        index = self.tokens.index_at(at)
        return next(
            (
                it
                for it in self.parsed.roots
                if it.kind == "fundef" and it.first <= index <= it.last
            ),
            None,
        )

    def may_ask(self):
        """Whether there is a program to ask, and time for it."""
        return self.ask is not None and time.monotonic() < self.until

    def fresh(self):
        """A name that the program doesn't have."""
        name = "later"
        while re.search(rf"\b{name}\b", self.text):
            name += "_"
        return name

    @staticmethod
    def results(body):
        """The expressions that a body's value, or a part of it, is one of: those of each match that
        isn't within an argument, in a list of its own. Without a match it is the body alone."""
        found, waiting = [], [(body, None)]
        while waiting:
            node, group = waiting.pop()
            if node.kind == "match":
                if group is None:
                    group = []
                    found.append(group)
                clauses = [it for it in node.parts[1:] if it.kind == "clause"]
                waiting += [(it.parts[1], group) for it in reversed(clauses)]
            elif node.kind == "group":
                waiting.append((node.parts[0], group))
            elif group is not None:
                group.append(node)
            elif node.kind in ("elem", "seq"):
                waiting += [(it, None) for it in reversed(node.parts)]
        return found or [[body]]

    def of_result(self, told):
        """Which clauses give a result that doesn't fit, each with a document."""
        function = self.function_at(told.start)
        if not function:
            return
        wanted, groups = function.parts[-2], self.results(function.parts[-1])
        told.hints[0] = f"the result's type hasn't it: {self.text_of(wanted)}"
        if not self.may_ask() or sum(map(len, groups)) > MOST_CLAUSES:
            return
        for group in groups:
            for result in group:
                if not self.may_ask():
                    told.hints.append("there may be more: that takes longer to find")
                    return
                document = self.alone(function, group, result)
                if document is not None:
                    if self.place(result.first) != told.start:
                        what = f"this result may be {document}"
                        if result is not function.parts[-1] and len(groups) > 1:
                            what = f"with this clause the result may be {document}"
                        told.related.append((self.place(result.first), what))
                    told.hints += self.other_way(told, result, wanted)
        told.hints = [*dict.fromkeys(told.hints)]

    def never(self):
        """A function's name, and its definition, whose calls have no value: in place of something
        they leave out its part of what a check finds."""
        name = self.fresh()
        types = f"type {name} = {name}[{name}]"
        return name, f"\nfun {name} (val x as Any) : {name} = {name}(())\n{types}\n"

    def alone(self, function, results, kept):
        """A document of a result that doesn't fit, by a program in which the others are none."""
        pieces, at, (name, helper) = [], 0, self.never()
        for node in results:
            if node is not kept:
                start, end = self.parsed.range(node)
                pieces += [self.text[at:start], f"{name}(())"]
                at = end
        changed = "".join([*pieces, self.text[at:], helper])
        status, output = self.ask("check", changed)
        parsed, number = notation.Parsed(changed), self.parsed.roots.index(function)
        for line in output.splitlines() if status == 1 else ():
            match = re.fullmatch(r"(\d+):(\d+): fault 14: result does not fit: (.*)", line)
            if match:
                index = parsed.tokens.index_at(parsed.tokens.offset(int(match[1]), int(match[2])))
                if parsed.roots[number].first <= index <= parsed.roots[number].last:
                    return match[3]
        return None

    def of_argument(self, told):
        """What the parameter is, and whether an argument is what doesn't fit only by another way of
        a pattern."""
        argument, parameter = self.argument_at(self.tokens.index_at(told.start))
        if parameter:
            told.hints[0] += f": {self.text_of(parameter.parts[0])}"
            told.hints = self.other_way(told, argument, parameter.parts[0]) or told.hints

    def argument_at(self, index):
        """The argument that begins at a token, and the parameter that it is for."""
        for node in self.around(index):
            if node.kind == "call" and node.name in self.names.at:
                wanted = [it for it in self.names.at[node.name].node.parts if it.kind == "param"]
                for part, parameter in zip(node.parts, wanted):
                    while part.kind == "group":
                        part = part.parts[0]
                    if part.first == index:
                        return part, parameter
        return None, None

    def other_way(self, told, node, type_):
        """What is said where an expression is what doesn't fit a type only by ways of patterns that
        no run takes: so, and what to write."""
        if any(it.kind == "match" for it in notation.nodes_of(node)) or not self.may_ask():
            return []
        used = dict.fromkeys(
            self.names.at[it.first]
            for it in notation.nodes_of(node)
            if it.kind == "var" and it.first in self.names.at
        )
        found = self.first_ways(told, node, type_, used)
        if found is None:
            return []
        said = ["no run gives it: it comes by another way of the pattern than the first one"]
        wanted = [self.text[slice(*self.parsed.range(type_))]] * (node.kind == "var")
        for entity, by_first in found.items():
            if len(entity.definitions) > 1 or len([*self.bound_in(entity.node)]) > 1:
                continue
            for narrow in dict.fromkeys([*wanted, by_first]):
                written = shown.bound(entity.name, narrow)
                start, end = self.parsed.range(entity.node)
                if self.is_better(self.text[:start] + written + self.text[end:]):
                    told.related.append((self.place(entity.node.name), BOUND))
                    told.mends.append((written, start, end))
                    return [*said, f"write {written}, and that way is gone"]
        told.related += [(self.place(entity.node.name), BOUND) for entity in found]
        return said

    @staticmethod
    def bound_in(pattern):
        return (it for it in notation.nodes_of(pattern) if it.kind == "val")

    def is_better(self, changed):
        """Whether a changed program has fewer faults."""
        before, after = (self.ask("check", it) for it in (self.text, changed))
        return after[1].count(": fault ") < before[1].count(": fault ")

    def first_ways(self, told, node, type_, used):
        """What first ways give those variables of patterns that an expression uses, if with these
        it fits a type, as `precise` and `check` say of programs in which all else is accepted; else
        None."""
        function = self.function_at(told.start)
        bound = [it for it in used if it.role == "variable"]
        given = bound and self.precise_of(function, bound)
        if not given:
            return None
        parameters, definitions, found = [], [], {}
        for number, entity in enumerate(used):
            if entity in given:
                name, text = shown.renamed(*given[entity], f"{self.fresh()}{number}_")
                definitions.append(text)
                typed, more = shown.in_names(self.parsed, *given[entity], self.ask)
                if not more:
                    found[entity] = typed
            else:
                name = self.text[slice(*self.parsed.range(entity.node.parts[0]))]
            parameters.append(f" (val {entity.name} as {name})")
        wanted, expression = (self.text[slice(*self.parsed.range(it))] for it in (type_, node))
        others = "".join(self.signature(it) for it in self.roots("fundef"))
        changed = (
            f"{shown.definitions_of(self.parsed)}{''.join(definitions)}{others}"
            f"fun {self.fresh()}{''.join(parameters)} : {wanted} = {expression}\n"
        )
        return found if self.ask("check", changed)[0] == 0 else None

    def precise_of(self, function, entities):
        """What first ways give variables of a function's patterns, as shown types, by a program in
        which all but its matches is left out."""
        parsed, (name, helper) = self.parsed, self.never()
        others = "".join(self.signature(it) for it in self.roots("fundef") if it is not function)
        start, end = parsed.range(function.parts[-1])
        head = self.text[parsed.range(function)[0] : start]
        body = self.rendered(function.parts[-1], name)
        changed = f"{shown.definitions_of(parsed)}{others}{head}{body}{helper}"
        status, output = self.ask("precise", changed)
        again = notation.Parsed(changed)
        last = again.roots[-3]
        own, those = (
            [
                it
                for it in names.variables
                if it.role == "variable" and root.first <= it.definitions[0] <= root.last
            ]
            for names, root in ((self.names, function), (notation.Names(again), last))
        )
        if status or len(own) != len(those):
            return None
        blocks, found = shown.blocks(output), {}
        for entity in entities:
            at = those[own.index(entity)].definitions[0]
            found[entity] = blocks.get(again.tokens.place(again.tokens.starts[at]))
        return found if all(found.values()) else None

    def roots(self, kind):
        return [it for it in self.parsed.roots if it.kind == kind]

    def signature(self, function):
        return signature(self.parsed, function)

    def rendered(self, body, never):
        """A body's matches alone, each of which takes all that comes, in place of the body."""
        waiting, found = [body], [f"{never}(())"]
        while waiting:
            node = waiting.pop()
            if node.kind != "match":
                waiting += reversed(node.parts)
                continue
            scrutinee = self.text[slice(*self.parsed.range(node.parts[0]))]
            clauses = [
                f"{self.text[slice(*self.parsed.range(it.parts[0]))]}"
                f" -> {self.rendered(it.parts[1], never)}"
                for it in node.parts[1:]
                if it.kind == "clause"
            ]
            clauses.append(f"Any -> {never}(())")
            found.append(f"(match {scrutinee} with {' | '.join(clauses)})")
        return ", ".join(found)


def signature(parsed, function):
    """A function whose body only calls it."""
    head = parsed.text[parsed.range(function)[0] : parsed.range(function.parts[-1])[0]]
    arguments = "".join(f"({parsed.word(it.name)})" for it in function.parts if it.kind == "param")
    return f"{head}{parsed.word(function.name)}{arguments}\n"


def report(name, text, output, places=None):
    """Writes what the program answered of a file, as tools/explain does. A fault without a place is
    one of a name on the command line."""
    source = shared.Source(name, text, places)
    explainer = Explainer(text, shared.ask_within(SECONDS))
    for told in explainer.told(output):
        source.report(told.start, told.message, told.hints, told.related)
    for line in output.splitlines():
        lacking = re.fullmatch(r"fault 15: type (\w+) is not defined", line)
        if lacking:
            print(f"{name}: {line}")
            for hint in explainer.nearest(lacking[1], explainer.names.types):
                print(f"  = {hint}")
        elif not LINE.fullmatch(line):
            print(line)


def visible(text):
    """A text in which signs that can't be seen are told by their numbers."""
    return "".join(it if it.isprintable() or it in "\t\n\r" else f"U+{ord(it):04X}" for it in text)


def of_document(data, text, at):
    """What a slip in a document looks like, at the place where no document goes on; text is data as
    far as it is UTF-8."""
    if at == len(text) and len(text.encode()) < len(data):
        byte = data[len(text.encode())]
        if data[:2] in (b"\xff\xfe", b"\xfe\xff"):
            return ["the file is UTF-16: save it as UTF-8"]
        return [
            f"the byte 0x{byte:02X} isn't UTF-8: if the file is Latin-1, "
            "iconv -f latin1 -t utf-8 mends it"
        ]
    front = text[:2000].lstrip("\ufeff \t\r\n")
    here, before = text[at : at + 40], text[max(at - 100, 0) : at]
    if here.startswith("\ufeff") and not front.startswith("<"):
        return ["the file begins with a byte order mark: save it without"]
    if here.lstrip("\ufeff").startswith("<"):
        return [
            "this is XML: tools/xml in makes a document of it"
            if front.startswith("<")
            else "this looks like XML: an element is written a[..]"
        ]
    if front[:1] in ("{", "[") and not before.strip():
        return ['this is JSON: what is "key": "value" there is key["value"] here']
    if re.match(r"(type|fun)\s", front) and not notation.Parsed(text[:100_000]).faults[:1]:
        return ["this is a program, and no document: FILE and TYPE stand before DOC"]
    tokens = notation.Tokens(text[at : at + 100_000])
    why = tokens.broken.get(0)
    if why == "escape":
        wrong = re.search(r'\\[^"\\nt]', text[at:])
        return [
            f'{wrong[0] if wrong else "this"} is no escape: there are \\" \\\\ \\n \\t, '
            "and a backslash is written \\\\"
        ]
    if why == "open text":
        return ["the text that begins here isn't closed"]
    if why == "open comment":
        return ["the comment that begins here isn't closed"]
    word = re.match(rf"({notation.WORD})(\s*)(.?)", here)
    if here[:1] in ("'", "\u201c", "\u201d", "\u00a0"):
        return [CHARACTERS[here[0]]]
    if here[:1] == ";":
        return ["items have commas between them"]
    if word and word[3] == "[" and word[2]:
        return ["a label is directly followed by its ["]
    if re.search(r"\(\s*$", before):
        return ["a document has no parentheses but ()"]
    if word and word[3].isalpha():
        return ["labels have ASCII letters, digits and _ alone"]
    if word and word[3] in ("-", ".", ":") and not word[2]:
        return ["labels have letters, digits and _ alone"]
    if word and re.search(r'["\]]\s*$', before):
        return ["items have commas between them"] if word[3] == "[" else []
    if word and word[3] == "(":
        return [f"an element is written {word[1]}[..]"]
    if word and word[3] != "[":
        return [f'a word alone is no item: a text is written "{word[1]}", an element {word[1]}[]']
    if re.match(r"&#?\w+;", here):
        return ["there are no entities: a text has the character itself"]
    if here[:1].isdigit():
        return [f'a text has quotes, a number too: "{re.match("[0-9.]*[0-9]", here)[0]}"']
    if here.startswith(("//", "#", "/*", "--")):
        return [COMMENT]
    if here[:1] in ('"',) and re.search(r'["\]]\s*$', before):
        return ["items have commas between them"]
    if here.startswith("(") and not re.match(r"\(\s*\)", here):
        return ["a document has no parentheses but ()"]
    if here.startswith("("):
        return ["() is the whole of a document or of a content, and no item"]
    if not front:
        return ["the empty document is written ()"]
    return []
