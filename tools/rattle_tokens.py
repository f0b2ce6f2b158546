"""The tokens of Rattle sources. They are those of Rust, and one token per clause and per ghost item, whose text is not Rust.

Used by erase.py and declarations.py. A text that is no token raises `Unknown`, with its line.
"""

import re
from dataclasses import dataclass


class Unknown(Exception):
    """A form that is not known, at a line of a source, and what can be done about it. A form within one line may be raised without the line."""

    def __init__(self, form, line=None, help=None):
        super().__init__(form)
        self.form, self.line, self.help = form, line, help

    def at(self, path):
        """The message for a source at a path: the path, the line, the form, and what can be done."""
        return f"{path}:{self.line}: {self.form}" + (f"\n  help: {self.help}" if self.help else "")


@dataclass
class Token:
    """A token with the line on which it begins. `kind` is one of those in KINDS, or one that `ghost_or_name` gives."""

    kind: str
    text: str
    line: int


KINDS = [
    ("space", re.compile(r"\s+")),
    ("inner_doc", re.compile(r"//![^\n]*")),
    ("doc", re.compile(r"///(?!/)[^\n]*")),
    ("comment", re.compile(r"//[^\n]*|/\*.*?\*/", re.S)),
    ("string", re.compile(r'[bc]?r(#*)".*?"\1|[bc]?"(?:\\.|[^"\\])*"', re.S)),
    ("char", re.compile(r"b?'(?:\\x[0-9a-fA-F]{2}|\\u\{[0-9a-fA-F_]+\}|\\.|[^\\'])'")),
    ("lifetime", re.compile(r"'[A-Za-z_]\w*")),
    ("number", re.compile(r"[0-9][0-9A-Za-z_]*(?:\.[0-9][0-9A-Za-z_]*)?")),
    ("name", re.compile(r"[A-Za-z_][A-Za-z0-9_]*")),
    ("mark", re.compile(r"[{}()\[\]<>;,.:=+\-*/%^&|!?@#$~]")),
]

BLANK = ("space", "comment", "doc", "inner_doc")
OPENING = {"(": ")", "[": "]", "{": "}"}
CLOSING = set(OPENING.values())


def end_of_terms(text, start):
    """The index after the braces that open at `start`. The terms in them have strings, `--` comments and braces."""
    depth = 0
    for part in re.compile(r'"(?:\\.|[^"\\])*"|--[^\n]*|[{}]').finditer(text, start):
        depth += {"{": 1, "}": -1}.get(part.group(), 0)
        if depth == 0:
            return part.end()
    raise Unknown("braces that do not close")


def end_of_ghost_member(text, start):
    """The index after a ghost member, which begins after the word `ghost`: a name, `: { .. }`, `= { .. }`, and a `;` or `,` if there is one."""
    word = re.compile(r"\s*\w+\s*").match(text, start)
    if not word:
        raise Unknown("a ghost item without a name")
    at = word.end()
    while text[at] in ":=":
        at = re.compile(r"\s*").match(text, at + 1).end()
        if text[at] != "{":
            raise Unknown("a ghost member without braces")
        at = re.compile(r"\s*").match(text, end_of_terms(text, at)).end()
    if text[at] not in ";,}":
        raise Unknown(f"a ghost member that ends with {text[at]!r}")
    return at + (text[at] in ";,")


def ghost_or_name(text, start, end):
    """The kind and the end of what begins with the name text[start:end]: a clause, a ghost item, or the name itself."""
    word = text[start:end]
    if word == "ghost":
        if re.compile(r"\s+use\b").match(text, end):
            return "ghost_use", text.index(";", end) + 1
        return "ghost_member", end_of_ghost_member(text, end)
    if word in ("requires", "ensures"):
        head = re.compile(r"\*?\s*\w*\s*(?=\{)").match(text, end)
        if not head:
            raise Unknown(f"{word} without braces")
        return word, end_of_terms(text, head.end())
    return "name", end


def tokens_of(text):
    """The tokens of a source. Their texts, one after the other, are the source."""
    tokens, at, line = [], 0, 1
    while at < len(text):
        kind, found = next(((k, m) for k, p in KINDS if (m := p.match(text, at))), (None, None))
        if not found:
            raise Unknown(f"the character {text[at]!r}", line, "KINDS in tools/rattle_tokens.py has the tokens of sources")
        try:
            kind, end = ghost_or_name(text, at, found.end()) if kind == "name" else (kind, found.end())
        except Unknown as unknown:
            raise Unknown(unknown.form, line, "tools/rattle_tokens.py says how clauses and ghost items end") from None
        tokens.append(Token(kind, text[at:end], line))
        line += text.count("\n", at, end)
        at = end
    tokens.append(Token("end", "", line))
    return tokens


def following(tokens, at):
    """The index of the first token from `at` on that is code."""
    while tokens[at].kind in BLANK:
        at += 1
    return at


def preceding(tokens, at):
    """The index of the last token up to `at` that is code, or -1."""
    while at >= 0 and tokens[at].kind in BLANK:
        at -= 1
    return at


def is_mark(tokens, at, text):
    return at >= 0 and tokens[at].kind == "mark" and tokens[at].text == text


def is_name(tokens, at, *names):
    return at >= 0 and tokens[at].kind == "name" and tokens[at].text in names


def closing(tokens, at):
    """The index of the bracket that closes the one at `at`."""
    depth = 0
    for index in range(at, len(tokens)):
        if tokens[index].kind == "mark":
            depth += (tokens[index].text in OPENING) - (tokens[index].text in CLOSING)
            if depth == 0:
                return index
    raise Unknown("a bracket that does not close", tokens[at].line)


def closing_angle(tokens, at):
    """The index of the `>` that closes the `<` at `at`."""
    depth = 0
    for index in range(at, len(tokens)):
        is_arrow = is_mark(tokens, index - 1, "-") or is_mark(tokens, index - 1, "=")
        depth += is_mark(tokens, index, "<") - (is_mark(tokens, index, ">") and not is_arrow)
        if depth == 0:
            return index
    raise Unknown("`<` that does not close", tokens[at].line)


def until(tokens, at, *texts):
    """The index of the first mark from `at` on, outside brackets, whose text is one of `texts`."""
    while tokens[at].kind != "end":
        if tokens[at].kind == "mark" and tokens[at].text in texts:
            return at
        at = closing(tokens, at) + 1 if tokens[at].kind == "mark" and tokens[at].text in "([{" else at + 1
    raise Unknown(f"the source ends before one of {' '.join(texts)}", tokens[at].line)


def separated(tokens, start, end):
    """The ranges between the commas of tokens[start:end] that are outside brackets."""
    ranges, depth, first = [], 0, start
    for index in range(start, end):
        text = tokens[index].text if tokens[index].kind == "mark" else ""
        depth += (text in ("(", "[", "{", "<")) - (text in (")", "]", "}") or text == ">" and not is_mark(tokens, index - 1, "-"))
        if text == "," and depth == 0:
            ranges.append((first, index))
            first = index + 1
    if any(token.kind not in BLANK for token in tokens[first:end]):
        ranges.append((first, end))
    return ranges


def text_of(tokens, start, end):
    """The text of tokens[start:end] without comments and with single spaces."""
    return " ".join("".join(t.text if t.kind not in BLANK else " " for t in tokens[start:end]).split())


def first_of_item(tokens, at):
    """The index of the first doc comment, attribute or `pub` of the item at `at`."""
    while True:
        before = at - 1
        while before >= 0 and tokens[before].kind == "space" and tokens[before].text.count("\n") < 2:
            before -= 1
        if before >= 0 and (tokens[before].kind in ("doc", "comment") or is_name(tokens, before, "pub")):
            at = before
        elif is_mark(tokens, before, "]") and (opened := opening_attribute(tokens, before)) is not None:
            at = opened
        else:
            return at


def opening_attribute(tokens, at):
    """The index of the `#` of the attribute that ends at `at`, or None."""
    depth = 0
    for index in range(at, -1, -1):
        depth += is_mark(tokens, index, "]") - is_mark(tokens, index, "[")
        if depth == 0:
            return index - 1 if is_mark(tokens, index - 1, "#") else None
    return None


@dataclass
class Scope:
    """An impl or a trait: its header, and the indices of its braces."""

    word: str
    header: str
    start: int
    opened: int
    closed: int
    is_public: bool


@dataclass
class Function:
    """A function: the indices of its name, its clauses and the braces of its body (None without one), and the impl or trait around it."""

    name: str
    at: int
    clauses: list
    opened: int
    closed: int
    scope: Scope
    is_public: bool
    takes_self: bool


def begins_item(tokens, at):
    """Whether the word at `at` begins an item: it follows an item, an attribute or `pub`."""
    before = preceding(tokens, at - 1)
    return before < 0 or tokens[before].kind in ("ghost_use", "ghost_member", "made") or tokens[before].text in ("}", ";", "]", "pub", ")", "{")


def scopes_of(tokens):
    """The impls and traits of a source."""
    scopes = []
    for at, token in enumerate(tokens):
        if is_name(tokens, at, "impl", "trait") and begins_item(tokens, at):
            opened = until(tokens, at, "{")
            header = text_of(tokens, at, opened)
            is_public = is_name(tokens, preceding(tokens, at - 1), "pub")
            scopes.append(Scope(token.text, header, at, opened, closing(tokens, opened), is_public))
    return scopes


def signature_end(tokens, at):
    """The index of the `{` or `;` that ends the signature of the function whose name is at `at`."""
    opened = following(tokens, at + 1)
    if is_mark(tokens, opened, "<"):
        opened = following(tokens, closing_angle(tokens, opened) + 1)
    return opened, until(tokens, closing(tokens, opened) + 1, "{", ";")


def functions_of(tokens):
    """The functions of a source, in order, with the impl or trait that they are directly in."""
    scopes, functions = scopes_of(tokens), []
    for at in range(len(tokens)):
        named = following(tokens, at + 1) if is_name(tokens, at, "fn") else at
        if named == at or tokens[named].kind != "name":
            continue
        parameters, end = signature_end(tokens, named)
        clauses = [i for i in range(named, end) if tokens[i].kind in ("requires", "ensures")]
        before = preceding(tokens, at - 1)
        while is_name(tokens, before, "final", "const"):
            before = preceding(tokens, before - 1)
        opened = end if is_mark(tokens, end, "{") else None
        is_nested = any(f.opened is not None and f.opened < at < f.closed for f in functions)
        around = [s for s in scopes if s.opened < at < s.closed and not is_nested]
        first = text_of(tokens, parameters + 1, closing(tokens, parameters))
        functions.append(Function(
            name=tokens[named].text, at=named, clauses=clauses, opened=opened, closed=closing(tokens, end) if opened else None,
            scope=around[-1] if around else None, is_public=is_name(tokens, before, "pub"),
            takes_self=bool(re.match(r"(&\s*)?('\w+ )?(mut )?self\b", first)),
        ))
    return functions
