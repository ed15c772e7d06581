"""The one layout of programs: blanks and line ends alone change, so it is the same program.

A program becomes pieces: words, places where a line may end, and groups of pieces, which stand in
one line where they fit and else end a line at each of their places. A comment stays where it is
between two words; where it had a line of its own, or ended one, it does so again.
"""
import notation

WIDTH, STEP = 100, 2
# Pieces. A LINE is a blank or, in a group that doesn't fit, the end of a line; a SOFT one is
# nothing or the end of a line; a HARD one always ends a line. A PAD stands only in groups that
# don't fit.
TEXT, LINE, SOFT, HARD, PAD, COMMENT, GROUP, NEST = range(8)
A_LINE, A_SOFT, A_HARD = (LINE, None, 1, False), (SOFT, None, 0, False), (HARD, None, 0, True)
TIGHT = ("]", ")", ",", "*", "+", "?")


def text(it):
    return TEXT, it, len(it), False


def group(pieces):
    return GROUP, pieces, 0, any(it[3] for it in pieces)


def nest(by, pieces):
    return NEST, (by, pieces), 0, any(it[3] for it in pieces)


class Layout:
    """The pieces of the definitions of a program."""

    def __init__(self, parsed):
        self.parsed, self.tokens = parsed, parsed.tokens
        self.before, self.after = {}, {}
        self.share_comments()

    def share_comments(self):
        """Gives the comments between two words to the one before them, as far as they end its line,
        and else to the one after, each with the ends of lines beside it."""
        tokens, source, index, runs = self.tokens, self.parsed.text, 0, {}
        for comment in tokens.comments:
            while tokens.starts[index] < comment[0]:
                index += 1
            runs.setdefault(index, []).append(comment)
        for index, run in runs.items():
            begins = [start for start, _ in run] + [tokens.starts[index]]
            ends = [tokens.ends[index - 1] if index else 0] + [end for _, end in run]
            # Whether a line ends between one and the next, from the word before to the one after.
            gaps = ["\n" in source[end:begin] for end, begin in zip(ends, begins)]
            if not index:
                gaps[0] = True
            count = 0 if gaps[0] else gaps.index(True) if True in gaps else 0
            if True not in gaps and tokens.kinds[index] in TIGHT:
                count = len(run)
            self.after[index - 1] = [(*run[it], gaps[it + 1]) for it in range(count)]
            self.before[index] = [
                (*run[it], gaps[it] and any(gaps[it + 1 :]), gaps[it + 1])
                for it in range(count, len(run))
            ]

    def token(self, index):
        """A word or sign with the comments beside it."""
        spelling, source = self.tokens.spelling(index), self.parsed.text
        pieces = []
        for start, end, is_alone, ends in self.before.get(index, ()):
            pieces += [A_HARD] * is_alone + [self.comment(source[start:end])]
            pieces.append(A_HARD if ends else text("" if spelling in TIGHT else " "))
        pieces.append(text(spelling))
        for start, end, ends in self.after.get(index, ()):
            pieces += [self.comment(source[start:end])] + [A_HARD] * ends
        return pieces

    @staticmethod
    def comment(it):
        return COMMENT, it, len(it) + 1, "\n" in it

    def tight(self, first, last):
        return [piece for index in range(first, last + 1) for piece in self.token(index)]

    def pieces(self, root):
        """The pieces of a definition; its parts are made before it."""
        made = {}
        for node in reversed([*notation.nodes_of(root)]):
            made[id(node)] = getattr(self, f"of_{NAMES.get(node.kind, node.kind)}")(
                node, [made.pop(id(it)) for it in node.parts]
            )
        return made[id(root)]

    def row(self, node, parts):
        pieces = list(parts[0])
        for part, its in zip(node.parts[1:], parts[1:]):
            pieces += [*self.token(part.first - 1), A_LINE, *its]
        return pieces

    def of_seq(self, node, parts):
        return self.row(node, [[group(it)] for it in parts])

    def of_alt(self, node, parts):
        pieces = [(PAD, "  ", 0, False), group([nest(2, parts[0])])]
        for part, its in zip(node.parts[1:], parts[1:]):
            pieces += [A_LINE, *self.token(part.first - 1), text(" "), group([nest(2, its)])]
        return pieces

    def of_typedef(self, node, parts):
        head = [
            *self.token(node.first),
            text(" "),
            *self.token(node.name),
            text(" "),
            *self.token(node.name + 1),
        ]
        inner = node.parts[0]
        while inner.kind in ("*", "+", "?"):
            inner = inner.parts[0]
        if inner.kind in ("elem", "group"):
            return [*head, text(" "), *parts[0]]
        return [group([*head, nest(STEP, [A_LINE, *parts[0]])])]

    def of_fundef(self, node, parts):
        count = len(parts) - 2
        head = [*self.token(node.first), text(" "), *self.token(node.name)]
        inner = [piece for part in parts[:count] for piece in (A_LINE, group(part))]
        result, body = node.parts[-2:]
        inner += [
            text(" "),
            *self.token(result.first - 1),
            text(" "),
            group(parts[-2]),
            text(" "),
            *self.token(body.first - 1),
        ]
        whole = [group([*head, nest(2 * STEP, inner)])]
        if body.kind == "match":
            return [*whole, nest(STEP, [A_HARD, *parts[-1]])]
        return [group([*whole, nest(STEP, [A_LINE, group(parts[-1])])])]

    def of_param(self, node, parts):
        return [
            *self.token(node.first),
            *self.token(node.first + 1),
            text(" "),
            *self.token(node.name),
            text(" "),
            *self.token(node.name + 1),
            text(" "),
            nest(STEP, [group(parts[0])]),
            *self.token(node.last),
        ]

    def of_leaf(self, node, parts):
        return self.tight(node.first, node.last)

    def bracketed(self, first, last, inner, has_inner):
        if not has_inner:
            return [group([*first, *self.token(last)])]
        return [group([*first, nest(STEP, [A_SOFT, *inner]), A_SOFT, *self.token(last)])]

    def of_elem(self, node, parts):
        inner = [piece for part in parts for piece in part]
        return self.bracketed(self.tight(node.first, node.name), node.last, inner, bool(parts))

    def of_group(self, node, parts):
        if node.parts[0].kind == "match":
            return [*self.token(node.first), nest(1, parts[0]), *self.token(node.last)]
        return self.bracketed(self.token(node.first), node.last, parts[0], True)

    def of_repeat(self, node, parts):
        return [*parts[0], *self.token(node.last)]

    def of_val(self, node, parts):
        pieces = [*self.token(node.first), text(" "), *self.token(node.name)]
        if parts:
            pieces += [text(" "), *self.token(node.name + 1), text(" "), *parts[0]]
        return pieces

    def of_call(self, node, parts):
        return [*self.token(node.name), *(piece for part in parts for piece in part)]

    def of_match(self, node, parts):
        pieces = [*self.token(node.first), text(" "), group([nest(STEP, parts[0])]), text(" ")]
        for number, (clause, its) in enumerate(zip(node.parts[1:], parts[1:])):
            sign = self.token(clause.first - 1)
            pieces += [*sign, A_HARD, text("  ")] if not number else [A_HARD, *sign, text(" ")]
            pieces.append(nest(STEP, its))
        return pieces

    def of_clause(self, node, parts):
        pattern, body = node.parts
        head = [group(parts[0]), text(" "), *self.token(body.first - 1)]
        inner = body
        while inner.kind == "group":
            inner = inner.parts[0]
        if inner.kind == "match":
            return [*head, nest(STEP, [A_HARD, *parts[1]])]
        return [group([*head, nest(STEP, [A_LINE, group(parts[1])])])]


NAMES = {
    **dict.fromkeys(("*", "+", "?"), "repeat"),
    **dict.fromkeys(("name", "texts", "text", "var", "empty"), "leaf"),
}


def fits(room, following, whole):
    """Whether the next pieces fit up to a place where the line may end. What follows the group is
    on a stack of its own, which is looked at from its end."""
    waiting, rest = [whole], len(following)
    while room >= 0:
        if not waiting:
            if not rest:
                return True
            rest -= 1
            _, is_broken, piece = following[rest]
            if is_broken and piece[0] in (LINE, SOFT, HARD):
                return True
            waiting.append(piece)
            if piece[0] in (GROUP, NEST) and is_broken:
                # Of what follows, the next place where a line ends is enough.
                waiting.pop()
                inner = piece[1] if piece[0] == GROUP else piece[1][1]
                for each in inner:
                    if each[0] in (LINE, SOFT, HARD):
                        return True
                    if each[0] in (GROUP, NEST):
                        waiting.append(each)
                        break
                    room -= each[2]
                else:
                    continue
                return room >= 0
            continue
        kind, it, width, _ = waiting.pop()
        if kind == GROUP:
            waiting += reversed(it)
        elif kind == NEST:
            waiting += reversed(it[1])
        elif kind == HARD:
            return True
        else:
            room -= width
    return False


def printed(pieces):
    """The lines of pieces."""
    out, column, is_blank = [], 0, True
    stack = [(0, True, piece) for piece in reversed(pieces)]
    while stack:
        indent, is_broken, piece = stack.pop()
        kind, it, width, has_hard = piece
        if kind == TEXT or kind == PAD and is_broken:
            if it == " " and (is_blank or out and out[-1][-1:] == " "):
                continue
            if it:
                out.append(it)
                column = len(it) - it.rfind("\n") - 1 if "\n" in it else column + len(it)
                is_blank = is_blank and not it.strip()
        elif kind == COMMENT:
            if not is_blank and out[-1][-1] not in " ([":
                out.append(" ")
            out.append(it)
            column, is_blank = column + width, False
        elif kind == HARD or kind in (LINE, SOFT) and is_broken:
            while out and is_blank and not out[-1].strip():
                out.pop()
            while out and out[-1] == " ":
                out.pop()
            out.append("\n" * bool(out) + " " * indent)
            column, is_blank = indent, True
        elif kind == LINE:
            if not is_blank:
                out.append(" ")
                column += 1
        elif kind == GROUP:
            broken = has_hard or is_broken and not fits(WIDTH - column, stack, piece)
            stack += [(indent, broken, each) for each in reversed(it)]
        elif kind == NEST:
            stack += [(indent + it[0], is_broken, each) for each in reversed(it[1])]
    return "".join(out)


def laid_out(source, parsed=None):
    """A program in its layout; one that has faults of syntax stays as it is."""
    parsed = parsed or notation.Parsed(source)
    if parsed.faults:
        return source
    layout, tokens = Layout(parsed), parsed.tokens
    # Comments between definitions belong to none.
    for first in (
        [*(root.first for root in parsed.roots[1:]), len(tokens.kinds) - 1] if parsed.roots else ()
    ):
        behind = layout.after.pop(first - 1, [])
        layout.before[first] = behind + layout.before.get(first, [])
    lines, end = [], 0
    for root in [*parsed.roots, None]:
        first = root.first if root else len(tokens.kinds) - 1
        between = layout.before.pop(first, [])
        for start, stop, *_ in between:
            gap = source[end:start].count("\n")
            if gap == 0 and lines:
                lines[-1] += " " + source[start:stop]
            else:
                lines += [""] * (gap > 1 and bool(lines)) + [source[start:stop]]
            end = stop
        if root:
            gap = source[end : tokens.starts[first]].count("\n") if lines else 0
            lines += [""] * (gap > 1)
            lines.append(printed(layout.pieces(root)))
            end = tokens.ends[root.last]
    return "".join(f"{it}\n" for it in lines)
