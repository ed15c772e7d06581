"""Which labels may stand at a place in a pattern that is being written: the program is asked what
may come to the clause, and that is followed through what stands of the pattern."""
import re

import notation
import shared
import shown

where = shared.load("where")


def labels(parsed, program, ask):
    """The labels that may stand next in the pattern of a clause; None where they aren't known, or
    all may.

    `parsed` is what was read of a function up to the place, and `program` is the program, in which
    that function may be another one.
    """
    clause = open_clause(parsed)
    if clause is None:
        return None
    later = "later"
    while re.search(rf"\b{later}\b", parsed.text) or re.search(rf"\b{later}\b", program.text):
        later += "_"
    own = parsed.roots[-1]
    others = "".join(
        wide(program, it)
        for it in program.roots
        if it.kind == "fundef" and program.word(it.name) != parsed.word(own.name)
    )
    others += wide(parsed, own)
    types, written = shown.definitions_of(program), function_up_to(parsed, clause, later)
    helper = f"fun {later} (val x as Any) : Any = {later}(x)\n"
    status, output = ask("types", types + others + helper + written)
    blocks = shown.blocks(output) if status == 0 else None
    if not blocks:
        return None
    # (what comes to the clause is bound last)
    root, definitions = blocks[max(blocks)]
    pattern = clause.parts[0] if clause.kind == "clause" else clause
    heads = Follow(notation.definitions(types + definitions)).heads(parsed, pattern, root)
    classes = [head[1] for head in heads if head[0] == "elem"]
    if any(is_except for _, is_except in classes):
        return None
    return sorted({label for names, _ in classes for label in names})


def wide(parsed, function):
    """A function that takes whatever comes, and whose body only calls it."""
    name, result = parsed.word(function.name), parsed.text[slice(*parsed.range(function.parts[-2]))]
    parameters = [parsed.word(it.name) for it in function.parts if it.kind == "param"]
    head = "".join(f" (val {it} as Any)" for it in parameters)
    return f"fun {name}{head} : {result} = {name}{''.join(f'({it})' for it in parameters)}\n"


def open_clause(parsed):
    """The clause that is being written in the innermost match, or what is missing of it; None where
    there is none."""
    opened = [it for it in parsed.opened if parsed.tokens.kinds[it] == "match"]
    root = parsed.roots[-1] if parsed.roots and opened else None
    if root is None or root.kind != "fundef":
        return None
    for node in notation.nodes_of(root):
        if node.kind == "match" and node.first == opened[-1] and len(node.parts) > 1:
            return node.parts[-1]
    return None


def function_up_to(parsed, clause, later):
    """The function up to a clause, in whose stead a variable takes all that comes. Clauses before
    it have no bodies, and matches around it take whatever else comes."""
    tokens, root, end = parsed.tokens, parsed.roots[-1], parsed.tokens.starts[clause.first]
    opened = [it for it in parsed.opened if tokens.starts[it] < end]
    edits = []
    for node in notation.nodes_of(root):
        if node.kind == "match" and node.first in opened:
            edits.append((tokens.starts[node.first], tokens.starts[node.first], "("))
            for other in node.parts[1:-1]:
                edits.append((*parsed.range(other.parts[1]), f"{later}(())"))
    last = [it for it in root.parts if it.kind == "param"][-1]
    at = tokens.starts[root.parts[-1].first]
    # (under another name, since by its own it is called with whatever comes)
    pieces = [f"fun {later}_", parsed.text[tokens.ends[root.name] : tokens.ends[last.last]]]
    pieces.append(" : Any = ")
    for start, stop, new in sorted(edits):
        pieces += [parsed.text[at:start], new]
        at = stop
    pieces += [parsed.text[at:end], f"val all -> {later}(())"]
    closing = {"label": "]", "(": ")", "[": "]", "match": f" | Any -> {later}(()))"}
    pieces += [closing.get(tokens.kinds[it], "") for it in reversed(opened) if it >= root.first]
    return "".join(pieces)


def overlaps(one, other):
    """Whether two classes have a name in common."""
    (names, is_except), (others, is_other_except) = one, other
    if is_except and is_other_except:
        return True
    if is_except or is_other_except:
        return bool(set(others) - set(names) if is_except else set(names) - set(others))
    return not set(names).isdisjoint(others)


class Follow:
    """Follows types through a pattern: what may still come behind what a part of it takes."""

    def __init__(self, found):
        self.meaning, self.busy = where.Beginnings(found), set()

    def heads(self, parsed, node, root):
        """With what goes on that may stand at the end of what there is of a pattern."""
        types = frozenset([("name", root)])
        while node.parts:
            if node.kind == "seq":
                for part in node.parts[:-1]:
                    types = self.behind(notation.type_of(parsed, part), types)
            elif node.kind == "elem":
                types = self.inside(notation.class_of(parsed.tokens, node), types)
            node = node.parts[-1]
        if node.kind == "elem" and node.name is not None:
            types = self.inside(notation.class_of(parsed.tokens, node), types)
        return [head for it in types for head in self.meaning.heads(it)]

    def inside(self, class_, types):
        return frozenset(head[2] for head in self.like("elem", class_, types))

    def like(self, kind, class_, types):
        for type_ in types:
            for head in self.meaning.heads(type_):
                if head[0] == kind and overlaps(head[1], class_):
                    yield head

    def behind(self, type_, types):
        """What may come behind a part of each of these types that a pattern takes."""
        kind, inner = type_[:2]
        if kind in ("elem", "text"):
            return frozenset(head[3] for head in self.like(kind, inner, types))
        if kind == "seq":
            for part in inner:
                types = self.behind(part, types)
            return types
        if kind == "alt":
            return frozenset().union(*(self.behind(it, types) for it in inner))
        if kind == "val":
            return self.behind(type_[2], types)
        if kind == "name":
            key = inner, types
            if key in self.busy or inner not in self.meaning.found:
                return frozenset()
            self.busy.add(key)
            found = self.behind(self.meaning.found[inner], types)
            self.busy.discard(key)
            return found
        found = types if kind != "+" else self.behind(inner, types)
        while kind != "?":
            more = found | self.behind(inner, found)
            if more == found:
                return found
            found = more
        return found | self.behind(inner, found)
