"""What an editor offers to mend at a place: each as a title and edits, which are begins, ends and
new texts."""
import re

import notation


def of_told(program, told):
    """What mends a line of `check`."""
    for new, start, end in told.mends:
        yield f"write {shortened(new)}", [(start, end, new)]
    tokens, index = program.tokens, program.tokens.index_at(told.start)
    if told.number == 0:
        yield from without_clause(program, index)
    elif told.number == 7:
        yield from with_parameter(program, index)
    elif told.number == 12:
        yield from with_clause(program, index, told.message.partition("exhaustive: ")[2])


def shortened(text):
    return text if len(text) <= 60 else f"{text[:58]}.."


def nodes_around(program, index, kind):
    """The nodes of a kind that a token is in, the outermost first."""
    for root in program.parsed.roots:
        if root.first <= index <= root.last:
            for node in notation.nodes_of(root):
                if node.kind == kind and node.first <= index <= node.last:
                    yield node


def without_clause(program, index):
    """Takes a clause away, and the bar beside it."""
    starts, ends = program.tokens.starts, program.tokens.ends
    for match in nodes_around(program, index, "match"):
        clauses = match.parts[1:]
        for number, clause in enumerate(clauses):
            pattern = clause.parts[0] if clause.kind == "clause" else clause
            if pattern.first <= index <= pattern.last and len(clauses) > 1:
                if number:
                    span = ends[clauses[number - 1].last], ends[clause.last]
                else:
                    span = starts[clause.first], starts[clauses[1].first]
                yield "take the clause away", [(*span, "")]


def with_parameter(program, index):
    """Gives the function a parameter with the name of a variable that isn't there."""
    word, ends = program.tokens.word(index), program.tokens.ends
    for function in nodes_around(program, index, "fundef"):
        last = [it for it in function.parts if it.kind == "param"][-1:]
        if last:
            new = f" (val {word} as Any)"
            yield f"make {word} a parameter", [(ends[last[0].last], ends[last[0].last], new)]


def with_clause(program, index, document):
    """Puts a clause for a document that no clause takes behind the others."""
    tokens, text = program.tokens, program.text
    pattern = pattern_of(document, text)
    for match in nodes_around(program, index, "match"):
        clauses = [it for it in match.parts[1:] if it.kind == "clause"]
        if match.first != index or not clauses or pattern is None:
            continue
        last = clauses[-1]
        start, end = program.parsed.range(last.parts[1])
        before = tokens.starts[last.first - 1]
        margin = text[text.rfind("\n", 0, before) + 1 : before]
        if margin.strip() and len(clauses) > 1:
            margin = " "
        else:
            first = tokens.starts[clauses[0].first]
            line = text[text.rfind("\n", 0, first) + 1 : first]
            margin = " " if line.strip() else f"\n{line[:-2] if len(clauses) == 1 else margin}"
        new = f"{margin}| {pattern} -> ()"
        if ends_open(last.parts[1]):
            edits = [(start, start, "("), (end, end, f"){new}")]
        else:
            edits = [(end, end, new)]
        yield f"take {shortened(pattern)} by a clause", edits


def ends_open(node):
    """Whether a bar behind an expression would begin a clause of it."""
    while node.kind == "seq":
        node = node.parts[-1]
    return node.kind == "match"


def pattern_of(document, text):
    """The pattern that takes a document; a text that the program doesn't name stands for any."""
    parsed = notation.Parsed(document, "Document")
    if parsed.faults:
        return None
    named = set(notation.Tokens(text).text.split('"')[1::2])

    def of(it):
        return it[0] if it[0][1:-1] and it[0][1:-1] in named else "String"

    return re.sub(r'"[^"\\]*(?:\\.[^"\\]*)*"', of, document)


def of_variable(program, entity, task):
    """Writes the type of a variable that is bound without one, or says that it is meant to be
    unused."""
    if entity.role == "variable" and len(entity.definitions) == 1 and not entity.node.parts:
        shown = program.precise(entity, task)
        if shown and not shown[1]:
            end = program.tokens.ends[entity.node.last]
            new = f" as {shown[0]}"
            yield f"write val {entity.name}{shortened(new)}", [(end, end, new)]
    if not entity.uses and not entity.name.startswith("_") and len(entity.definitions) == 1:
        start = program.tokens.starts[entity.definitions[0]]
        yield f"write _{entity.name}, which may be unused", [(start, start, "_")]
