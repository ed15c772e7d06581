"""What makes `check` of a program take long: the matches and the results that do so by themselves.

Each question is a check of the program without some of its parts, under a limit of time. In place
of a function's body that is left out stands a call of the function itself, which has its declared
type, and in place of an expression a call that has no value.
"""
import subprocess

import hints
import notation
import shared

# The most that is told.
MOST = 3


def is_longer(text, seconds):
    """Whether the check of a program takes longer, or more memory than there is."""
    try:
        return shared.ask_of_text("check", text, timeout=seconds)[0] == shared.NO_MEMORY
    except subprocess.TimeoutExpired:
        return True


class Dear:
    """What takes long: a run of functions, of matches or of other expressions of a function, as the
    first and the last node; of one match also its clauses, as many from the first on as take long.
    """

    def __init__(self, run, function, clauses=()):
        self.first, self.last, self.function, self.clauses = run[0], run[-1], function, clauses


class Cost:
    """Looks for what is dear in a program without faults of syntax. `is_long` says of a text
    whether its check takes longer than is wanted."""

    def __init__(self, text, is_long):
        self.text, self.is_long = text, is_long
        self.explainer = hints.Explainer(text)
        self.parsed, self.tokens = self.explainer.parsed, self.explainer.tokens
        self.functions = self.explainer.roots("fundef")
        self.never, self.helper = self.explainer.never()

    def found(self):
        """What is dear, one after the other, each by a program without those before. Of types
        alone there is no more to say than that they are, as None."""
        left, found = self.functions, []
        if self.is_long(self.program({})):
            return [None]
        while left and len(found) < MOST and self.is_long(self.program(dict.fromkeys(left))):
            run = self.shortest(left, lambda some: self.program(dict.fromkeys(some)))
            found.append(self.within(run[0]) if len(run) == 1 else Dear(run, run[0]))
            left = [it for it in left if it not in run]
        return found

    def shortest(self, parts, program):
        """A run of parts that take long together, and no half of it does."""
        while len(parts) > 1:
            middle = len(parts) // 2
            halves = (it for it in (parts[:middle], parts[middle:]) if self.is_long(program(it)))
            half = next(halves, None)
            if not half:
                break
            parts = half
        return parts

    def program(self, bodies):
        """The program with the bodies of some functions, as a text or, for None, as they are."""
        pieces = []
        for node in self.parsed.roots:
            start, end = self.parsed.range(node)
            if node.kind == "typedef" or node in bodies and bodies[node] is None:
                pieces.append(self.text[start:end])
            elif node in bodies:
                head = self.text[start : self.parsed.range(node.parts[-1])[0]]
                pieces.append(head + bodies[node])
            else:
                pieces.append(self.explainer.signature(node))
        return "\n".join([*pieces, self.helper])

    def within(self, function):
        """What is dear in a function."""
        body = function.parts[-1]
        matches = [it for it in notation.nodes_of(body) if it.kind == "match"]

        def reduced(kept, count=None):
            return self.program({function: self.reduced(body, kept, count)})

        if not matches or not self.is_long(reduced(matches)):
            results = [it for group in hints.Explainer.results(body) for it in group]
            return Dear(self.shortest(results, reduced), function)
        run = self.shortest(matches, reduced)
        if len(run) > 1:
            return Dear(run, function)
        around = (it for it in matches if it.first <= run[0].first and run[0].last <= it.last)
        match = next(it for it in around if it is run[0] or self.is_long(reduced([it])))
        low, high = 0, len(match.parts) - 1
        while high - low > 1:
            middle = (low + high) // 2
            is_long = self.is_long(reduced([match], middle))
            low, high = (low, middle) if is_long else (middle, high)
        return Dear([match], function, match.parts[1 : high + 1])

    def reduced(self, node, kept, count=None):
        """An expression as a text in which there is only what is kept and what that stands in: of a
        match its patterns, of the one match that is kept so many clauses if that is said, and of
        another expression all."""
        if not any(node.first <= it.first and it.last <= node.last for it in kept):
            return f"{self.never}(())"
        if node in kept and node.kind != "match":
            return self.text[slice(*self.parsed.range(node))]
        if node.kind != "match":
            inner = [self.reduced(it, kept, count) for it in node.parts]
            own = f"{self.never}(())"
            return ", ".join([own, *(f"({it})" for it in inner if it != own)])
        clauses = []
        for clause in node.parts[1 : count + 1 if count and node in kept else None]:
            pattern, body = clause.parts
            pattern = self.text[slice(*self.parsed.range(pattern))]
            clauses.append(f"{pattern} -> {self.reduced(body, kept, count)}")
        scrutinee = self.text[slice(*self.parsed.range(node.parts[0]))]
        return f"(match {scrutinee} with {' | '.join(clauses)})"

    def head(self, pattern):
        """What all documents of a pattern begin with, as it is written; None for nothing."""
        while pattern.kind in ("val", "group", "seq", "+") and pattern.parts:
            pattern = pattern.parts[0]
        if pattern.kind not in ("elem", "name", "texts"):
            return None
        last = pattern.name if pattern.kind == "elem" else pattern.last
        return self.text[self.tokens.starts[pattern.first] : self.tokens.ends[last]]

    def alike(self, clauses):
        """The most clauses that begin alike, and with what."""
        groups = {}
        for clause in clauses:
            head = self.head(clause.parts[0])
            if head:
                groups.setdefault(head, []).append(clause)
        return max(groups.items(), key=lambda it: len(it[1]), default=(None, []))


def report(source, seconds):
    """Says of a program whose check takes longer than so many seconds what takes half of them by
    itself."""
    looked = Cost(source.text, lambda text: is_longer(text, seconds / 2))
    half, found = f"more than {seconds / 2:g} s", looked.found()
    print(f"{source.name}: check takes more than {seconds:g} s")
    if not found:
        print(f"  = no part takes {half} by itself")
    for dear in found:
        if dear:
            start, what, said, related = told(looked, dear)
            source.report(start, f"{what} {half}", said, related)
        else:
            print(f"  = the types alone take {half}")


def told(looked, dear):
    """What is said of something that takes long: where it begins, its name in words, how to write
    it instead, and other places that matter."""
    begin, end = (looked.parsed.range(it)[0] for it in (dear.first, dear.last))
    function = f"of the function {looked.tokens.word(dear.function.name)}"
    kind = ("match", "matches") if dear.first.kind == "match" else ("result", "results")
    if begin != end:
        last = [(end, "up to this one, and none of them takes as long by itself")]
        is_whole = dear.first is dear.function
        what = "these functions take" if is_whole else f"these {kind[1]} {function} take"
        return begin, what, [], last
    related, said = [], []
    if dear.clauses:
        last = looked.parsed.range(dear.clauses[-1])[0]
        related.append((last, "the clauses up to this one are enough for that"))
        head, alike = looked.alike(dear.clauses)
        if len(alike) > 1:
            said.append(f"{len(alike)} of {len(dear.first.parts) - 1} clauses begin with {head}")
            said += nested(head, alike)
        said.append("docs/limits.md says what else is dear, and what to write instead")
    return begin, f"this {kind[0]} {function} takes", said, related


def is_row(pattern):
    while pattern.kind in ("val", "group") and pattern.parts:
        pattern = pattern.parts[0]
    return pattern.kind == "seq"


def nested(head, clauses):
    """How to nest clauses that begin with an element of the same label."""
    if not head.endswith("["):
        return []
    if any(is_row(it.parts[0]) for it in clauses):
        inner = "a match on x, with a match on rest in each clause"
        return [f"nest them: {head}val x], val rest -> {inner}"]
    return [f"nest them: {head}val x] -> a match on x"]
