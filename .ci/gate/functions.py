"""Finds the functions of a source file: their names, and the lines of their headers and bodies.

It reads just enough of the language: comments, strings, characters, and braces. A clause's braces (`requires { .. }`, `ensures label { .. }`,
`ghost n: { .. }`) belong to the header of a function.
"""
import re
from dataclasses import dataclass

FUNCTION = re.compile(r"\bfn\s+(\w+)")
CLAUSE = re.compile(r"(?:\b(?:requires|ensures)\*?(?:\s+\w+)?|\bghost\s+\w+\s*:)\s*\Z")
CYCLE = re.compile(r"#\[cycle\b")


@dataclass(frozen=True)
class Function:
    name: str
    first: int  # the line of its first attribute or of `fn`, from 1
    clauses: int  # the line of its first clause, or 0
    opens: int  # the line of its body's opening brace
    last: int  # the line of its body's closing brace
    is_alone: bool  # whether it calls itself, or is marked as one of a cycle

    def has_in_body(self, first, last):
        return self.opens <= first and last <= self.last


CHARACTER = re.compile(r"'(?:\\.[^']{0,8}|[^\\'\n])'")


def pieces(text):
    """The text in pieces, in order: `comment`, `string` (a character too) and `code`, each with its words."""
    at = began = 0
    end = len(text)
    while at < end:
        stop, kind = at, ""
        if text.startswith("//", at):
            found = text.find("\n", at)
            stop, kind = end if found < 0 else found, "comment"
        elif text.startswith("/*", at):
            found = text.find("*/", at)
            stop, kind = end if found < 0 else found + 2, "comment"
        elif text[at] == '"':
            stop = at + 1
            while stop < end and text[stop] != '"':
                stop += 2 if text[stop] == "\\" else 1
            stop, kind = min(stop + 1, end), "string"
        elif found := CHARACTER.match(text, at):
            stop, kind = found.end(), "string"
        if kind:
            if began < at:
                yield "code", text[began:at]
            yield kind, text[at:stop]
            began = at = stop
        else:
            at += 1
    if began < end:
        yield "code", text[began:]


def blanked(text):
    """The text with each comment, string and character made of blanks, so that braces count; line ends stay."""
    return "".join(piece if kind == "code" else re.sub(r"[^\n]", " ", piece) for kind, piece in pieces(text))


def closing(text, at):
    """The place of the brace that closes the one at this place, or None."""
    depth = 0
    for k in range(at, len(text)):
        depth += (text[k] == "{") - (text[k] == "}")
        if depth == 0:
            return k
    return None


def body_of(text, at):
    """Of the function whose name ends at this place, the places of its first clause's brace, or None, and of the braces round its body. None
    where it has no body."""
    depth, clauses = 0, None
    while at < len(text):
        if text[at] in "([":
            depth += 1
        elif text[at] in ")]":
            depth -= 1
        elif text[at] == "{":
            stop = closing(text, at)
            if stop is None:
                return None
            if depth == 0 and not CLAUSE.search(text[:at][-80:]):
                return clauses, at, stop
            clauses, at = clauses or at, stop
        elif text[at] == ";" and depth == 0:
            return None
        at += 1
    return None


def first_line(lines, line):
    """The first line of the attributes above a line, also where comments stand between, both from 1."""
    first = line
    while line > 1 and lines[line - 2].strip().startswith(("#[", "//")):
        line -= 1
        if lines[line - 1].strip().startswith("#["):
            first = line
    return first


def functions_of(text):
    """The functions that have a body, in order. Those inside another one's body are left out: they are a part of it."""
    bare = blanked(text)
    lines = text.split("\n")
    line_of = lambda place: text.count("\n", 0, place) + 1
    found, at = [], 0
    for match in FUNCTION.finditer(bare):
        if match.start() < at:
            continue
        body = body_of(bare, match.end())
        if body is None:
            continue
        clauses, opens, stop = body
        at = stop
        line = line_of(match.start())
        first = first_line(lines, line)
        above = "\n".join(lines[first - 1 : line])
        calls_itself = re.search(rf"(?<![.:\w])(?:Self::)?{match[1]}\s*(?:::<[^>]*>)?\(", bare[opens:stop])
        is_alone = bool(CYCLE.search(above) or calls_itself)
        found.append(Function(match[1], first, line_of(clauses) if clauses else 0, line_of(opens), line_of(stop), is_alone))
    return found
