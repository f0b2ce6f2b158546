"""The declarations of the C interface, as the Rattle sources have them: the exported functions with their documentation, the statuses, the version.

A parameter has one of these kinds:

- `handle`, or `read handle` if the call only reads the bitmap
- `u8`, `u32`, `u64`, `size`: a value; `status`: a number that may be a status
- `u8 out`, `u64 out`, `size out`: a pointer to one value
- `u8 array in`, `u64 array in`, `u8 array out`, `u64 array out`: a pointer to the elements; the next parameter is their `length`
- `32 bytes in`: a pointer to 32 bytes

The length of the elements of `NAME` is `len` if they are the only ones, and otherwise `NAME_len`. A function that takes something returns a `status`. tools/interface.py writes the declarations in C, Rust and Python.
"""

import re
from functools import lru_cache
from pathlib import Path
from typing import NamedTuple

from rattle_tokens import Unknown, closing, first_of_item, following, functions_of, is_mark, is_name, preceding, separated, text_of, tokens_of, until

TOP = Path(__file__).resolve().parent.parent
SOURCES = "crates/bitmap_c/src"
STATUSES = f"{SOURCES}/status.rt"
PREFIX = "mortarpink_"

KINDS = {
    "&mut Handle": "handle", "u8": "u8", "u32": "u32", "u64": "u64", "usize": "size", "&mut u8": "u8 out", "&mut u64": "u64 out",
    "&mut usize": "size out", "&[u8]": "u8 array in", "&[u64]": "u64 array in", "&mut [u8]": "u8 array out", "&mut [u64]": "u64 array out",
    "&[u8; 32]": "32 bytes in",
}

# The kinds of handles.
HANDLES = ("handle", "read handle")

# The type of a parameter that C does not have: the allocator.
ALLOCATOR = "Global"

# The type of the result of each function.
RESULT = "u32"


class Mistake(Exception):
    """What is wrong with the sources, with its place."""


class Parameter(NamedTuple):
    name: str
    kind: str


class Function(NamedTuple):
    name: str  # without the prefix
    doc: list  # the lines of its documentation
    parameters: tuple
    result: str


class Constant(NamedTuple):
    name: str
    number: int
    doc: list


class Declarations(NamedTuple):
    functions: dict  # by name
    statuses: dict  # by name
    version: Constant

    @property
    def numbers(self):
        """The numbers of the statuses, by name."""
        return {name: status.number for name, status in self.statuses.items()}


# The one function of the library that is written in C, in bindings/c/status_text.c.
STATUS_TEXT = Function(
    "status_text", ["Returns a constant English text for a status, also for a number that is none."], (Parameter("status", "status"),), "text"
)


def doc_of(tokens, at):
    """The lines of the documentation of the item that begins at `at`, or above its attributes."""
    return [token.text[3:].removeprefix(" ") for token in tokens[first_of_item(tokens, at):at] if token.kind == "doc"]


def extern_of(tokens, at):
    """The index of the `extern` of a function whose name is at `at`, or None if C cannot call it."""
    language = preceding(tokens, preceding(tokens, at - 1) - 1)
    before = preceding(tokens, language - 1)
    return before if language >= 0 and tokens[language].text == '"C"' and is_name(tokens, before, "extern") else None


def signature_of(tokens, function):
    """The indices of the parentheses of a function."""
    opened = following(tokens, function.at + 1)
    return opened, closing(tokens, opened)


def reads_of(tokens):
    """The names of the exported functions of a source that only read: each passes the session of its handle to a function that takes it as a `&`."""
    functions = [function for function in functions_of(tokens) if is_mark(tokens, following(tokens, function.at + 1), "(")]
    readers = {each.name for each in functions if re.search(r"\bany: &AnySession\b", text_of(tokens, *signature_of(tokens, each)))}
    for function in functions:
        called = re.search(r"\bin_handle!\(bitmap, any => (?:self::)?(\w+)\(", text_of(tokens, function.opened or 0, function.closed or 0))
        if called and called[1] in readers:
            yield function.name


def kinds_of(tokens, opened):
    """The names and the kinds of the parameters of a function, whose parenthesis opens at `opened`, without the allocator."""
    for start, end in separated(tokens, opened + 1, closing(tokens, opened)):
        parameter, _, shown = text_of(tokens, start, end).partition(": ")
        if shown == ALLOCATOR:
            continue
        if shown not in KINDS:
            raise Unknown(f"the type `{shown}` of `{parameter}`", tokens[opened].line, "KINDS in tools/declarations.py has the types of parameters")
        yield parameter, KINDS[shown]


def parameters_of(tokens, opened, is_read):
    """The parameters in C of a function, whose parenthesis opens at `opened`: the allocator is none, and a slice is two."""
    kinds = list(kinds_of(tokens, opened))
    has_one_array = sum(" array " in kind for _, kind in kinds) == 1
    for parameter, kind in kinds:
        if kind == "handle":
            kind, is_read = "read handle" if is_read else kind, False
        yield Parameter(parameter, kind)
        if " array " in kind:
            yield Parameter("len" if has_one_array else f"{parameter}_len", "length")


def export_of(tokens, function, start, is_read):
    """An exported function, whose `extern` is at `start`. `is_read` says that it only reads the bitmap of its first handle."""
    opened, closed = signature_of(tokens, function)
    end = function.clauses[0] if function.clauses else function.opened
    name, doc = function.name.removeprefix(PREFIX), doc_of(tokens, start)
    parameters = tuple(parameters_of(tokens, opened, is_read))
    wrong = {
        f"a name without {PREFIX}": name == function.name,
        "no documentation": not doc,
        "two parameters with one name in C": len({parameter.name for parameter in parameters}) < len(parameters),
        "a result that is not `u32`": text_of(tokens, closed + 1, end) != f"-> {RESULT}",
        "a `requires`, which a caller in C can break": any(tokens[at].kind == "requires" for at in function.clauses),
    }
    for what in [what for what, is_so in wrong.items() if is_so]:
        raise Unknown(f"`{function.name}` has {what}", tokens[function.at].line)
    return Function(name, doc, parameters, "status" if parameters else KINDS[RESULT])


def exports_of(tokens):
    """The exported functions of a source, in order."""
    starts, reads = [(function, extern_of(tokens, function.at)) for function in functions_of(tokens)], {*reads_of(tokens)}
    exports = [export_of(tokens, function, start, function.name in reads) for function, start in starts if start is not None]
    marks = [at for at in range(len(tokens)) if is_name(tokens, at, "no_mangle")]
    if len(marks) != len(exports):
        raise Unknown(f"{len(marks)} marks `no_mangle` and {len(exports)} functions `extern \"C\"`", tokens[-1].line)
    return exports


def constants_of(tokens):
    """The public constants of a source that are numbers of the type `u32`."""
    for at in range(len(tokens)):
        if is_name(tokens, at, "const") and is_name(tokens, preceding(tokens, at - 1), "pub"):
            name = following(tokens, at + 1)
            found = re.fullmatch(r"(\w+): u32 = (\d+)", text_of(tokens, name, until(tokens, name, ";")))
            if found:
                yield Constant(found[1], int(found[2]), doc_of(tokens, at))


@lru_cache(maxsize=None)
def declared_in(text):
    """The exported functions and the constants of a source, each by name."""
    tokens = tokens_of(text)
    return {function.name: function for function in exports_of(tokens)}, {constant.name: constant for constant in constants_of(tokens)}


def declarations_of(texts):
    """The declarations in the texts of sources, by path. Raises `Mistake`."""
    functions, constants = {STATUS_TEXT.name: STATUS_TEXT}, {}
    for path, text in texts.items():
        try:
            exports, constants[path] = declared_in(text)
            functions |= exports
        except Unknown as unknown:
            raise Mistake(unknown.at(path)) from None
    versions = [found["VERSION"] for found in constants.values() if "VERSION" in found]
    if len(versions) != 1 or not constants.get(STATUSES):
        raise Mistake(f"{SOURCES} has {len(versions)} constants VERSION, and {len(constants.get(STATUSES, ()))} statuses")
    return Declarations(functions, constants[STATUSES], versions[0])


def sources():
    """The texts of the sources, by path."""
    return {path.relative_to(TOP).as_posix(): path.read_text() for path in sorted((TOP / SOURCES).rglob("*.rt"))}


def declared():
    """The declarations as the sources are now."""
    return declarations_of(sources())
