"""Checks the declarations of the C interface, and what has to agree with them: the handle, the order of the refusals, the texts and the versions.

A check is a case: its name, and what is wrong, or None.
"""

import re

import interface
from c_header import HEADER, TEMPLATE
from declarations import SOURCES, STATUSES, TOP, Mistake, declared, sources
from interface import PYTHON, RUST

TEXTS = "bindings/c/status_text.c"
SCRIPT = "docs/SCRIPT.md"
CALLS_OF_RUST = "bindings/rust/src/ffi.rs"
ERRORS_OF_PYTHON = "bindings/python/mortarpink/_errors.py"

# The statuses that a binding does not name, since no call of its own returns them or since they are no errors.
UNUSED = {CALLS_OF_RUST: {"IN_BATCH", "NOT_IN_BATCH", "EMPTY_HANDLE", "FULL_HANDLE", "NO_SUCH_WIDTH"},
          ERRORS_OF_PYTHON: {"FULL_HANDLE", "NONE"}}

# The status of the refusal `wrong-mode`; a call that needs a batch has NOT_IN_BATCH.
WRONG_MODE = "IN_BATCH"

# The version of the package.
RELEASES = {
    "tools/package.sh": r"^version=([\d.]+)$",
    "bindings/rust/Cargo.toml": r"^version = \"(.*)\"$",
    "bindings/python/mortarpink/__init__.py": r"^__version__ = \"(.*)\"$",
}

# The handle is one pointer in each place.
HANDLES = {
    f"{SOURCES}/handle.rt": r"#\[repr\(C\)\]\n(?:#.*\n)*pub struct Handle \{\n    session: \*mut u8,\n    alloc: Global,\n    ghost value: \{[^{}]*\},\n\}",
    HEADER: r"typedef struct \{\s*void \*session;\s*\} mortarpink_bitmap;",
    RUST: r"#\[repr\(C\)\]\s*pub struct Handle \{\s*pub session: \*mut c_void,\s*\}",
    PYTHON: r"_fields_ = \[\(\"session\", ctypes\.c_void_p\)\]",
}

# Changes of the sources, each with the generated files that it makes differ, or with words of the mistake: the file, the text after which the
# first old text is replaced, the old text and the new one.
ALL = {HEADER, RUST, PYTHON}
CHANGES = [
    ("making.rt", "fn mortarpink_new(", "width: u32", "width: u64", ALL),
    ("making.rt", "fn mortarpink_new(", "width: u32", "width: u16", "the type `u16` of `width`"),
    ("making.rt", "fn mortarpink_start(", ": u64", ": usize", ALL),
    ("reads.rt", "fn mortarpink_get(", "bit: &mut u8", "bit: u8", ALL),
    ("reads.rt", "fn mortarpink_encode(", "size: &mut usize", "size: &mut u64", ALL),
    ("many.rt", "fn mortarpink_push_bytes(", "bytes: &[u8]", "bytes: &mut [u8]", ALL),
    ("many.rt", "fn mortarpink_set_many(", "positions: &[u64]", "positions: &mut [u64]", ALL),
    ("history.rt", "fn mortarpink_rewind(", "number: u64", "commit: u64", {HEADER, RUST}),
    ("searches.rt", "fn mortarpink_next_one(", "from: u64", "start: u64", "the documentation has `from`"),
    ("commits.rt", "fn mortarpink_commits(", "count:", "len:", "`mortarpink_commits` has two parameters with one name in C"),
    ("edits.rt", "", "fn mortarpink_pop(", "fn mortarpink_take(", "mortarpink.h.in has to name each function once"),
    ("edits.rt", "", "fn mortarpink_pop(", "fn pop_bit(", "`pop_bit` has a name without mortarpink_"),
    ("edits.rt", "mortarpink_pop(", ") -> u32", ") -> u64", "`mortarpink_pop` has a result that is not `u32`"),
    ("edits.rt", "mortarpink_pop(", "ensures step", "requires step", "`mortarpink_pop` has a `requires`"),
    ("edits.rt", "", 'extern "C" fn mortarpink_pop(', "fn mortarpink_pop(", "marks `no_mangle`"),
    ("reads.rt", "fn get(", "any: &AnySession", "any: &mut AnySession", ALL),
    ("edits.rt", "fn abort(", "any: &mut AnySession", "any: &AnySession", ALL),
    ("edits.rt", "", "/// Removes the last bit", "/// Removes a bit", {HEADER}),
    ("edits.rt", "fn mortarpink_pop(", "/// # Complexity", "/// # Costs", "the section Costs"),
    ("status.rt", "", "WRONG_SIZE: u32 = 18", "WRONG_SIZE: u32 = 19", ALL),
    ("status.rt", "", "/// The position is pruned", "/// The position is gone", {HEADER}),
    ("making.rt", "", "VERSION: u32 = 2", "VERSION: u32 = 3", ALL),
]


def text_of(path):
    return (TOP / path).read_text()


def differing(texts, changed):
    """The generated files that a change of the texts of the sources makes differ, or the mistake."""
    template = text_of(TEMPLATE)
    files = interface.files_of(texts, template)
    try:
        return {path for path, made in interface.files_of(changed, template).items() if made != files[path]}
    except Mistake as mistake:
        return str(mistake)


def change_cases():
    """Whether changes of the sources are noticed."""
    texts = sources()
    for file, after, old, new, wanted in CHANGES:
        path = f"{SOURCES}/{file}"
        before, there, rest = texts[path].partition(after) if after else ("", "", texts[path])
        found = differing(texts, {**texts, path: before + there + rest.replace(old, new, 1)}) if old in rest else "the old text is not there"
        is_noticed = found == wanted if isinstance(wanted, set) else wanted in found
        yield f"`{new}` for `{old}` in {file}", None if is_noticed else f"{found or 'it is not noticed'}, and not {wanted}"


def file_cases():
    """Whether a change of a generated file is noticed."""
    for path, made in interface.files().items():
        is_noticed = all(interface.difference(path, changed) for changed in (made.replace("get", "got", 1), made + "\n", made[:-1]))
        yield f"a change of {path}", None if is_noticed else "it is not noticed"


def use_cases(names):
    """Whether the bindings name each status, so that each has its error."""
    for place, unused in UNUSED.items():
        text = text_of(place)
        missing = sorted(name for name in names if name not in unused and not re.search(rf"\b{name}\b", text))
        yield f"the statuses in {place}", f"it does not name {', '.join(missing)}" if missing else None


def handle_cases():
    for place, pattern in HANDLES.items():
        yield f"the handle in {place}", None if re.search(pattern, text_of(place)) else "it is not one pointer, or not written as expected"


def refusals():
    """The refusals of the script language, in order, each as a set of names of statuses: a decode error has several."""
    items = re.findall(r"^\d+\. `([a-z-]+)(?: ([a-z-]+))?", text_of(SCRIPT), re.MULTILINE)
    decode_errors = {detail for _, detail in items if detail}
    groups = [decode_errors if name == "codec" else {name} for name, detail in items if not detail]
    return [{WRONG_MODE if name == "wrong-mode" else name.upper().replace("-", "_") for name in group} for group in groups]


def order_cases(statuses):
    """Whether the statuses after DONE follow the order of the refusals."""
    names, at, groups = {number: name for name, number in statuses.items()}, 1, refusals()
    yield f"the refusals in {SCRIPT}", None if groups else "none was read"
    for group in groups:
        found, wanted = sorted(names.get(number, "none") for number in range(at, at + len(group))), sorted(group)
        difference = f"{', '.join(found)} in {STATUSES}, and {', '.join(wanted)} in {SCRIPT}"
        yield f"the status number {at} beside {SCRIPT}", None if found == wanted else difference
        at += len(group)


def text_cases(statuses):
    """Whether there is a text for each status, whose numbers are 0, 1, 2 and so on."""
    numbers = sorted(statuses.values())
    yield f"the numbers of the statuses in {STATUSES}", None if numbers == list(range(len(numbers))) else f"they are {numbers}"
    table = re.search(r"texts\[\] = \{(.*?)\};", text_of(TEXTS), re.DOTALL)
    count = len(re.findall(r"\"(?:[^\"\\]|\\.)+\"", table[1])) if table else 0
    yield f"the texts in {TEXTS}", None if count == len(numbers) else f"{count} texts, and {len(numbers)} statuses in {STATUSES}"


def release_cases():
    """Whether the package has one version in each place."""
    found = {path: re.search(pattern, text_of(path), re.MULTILINE) for path, pattern in RELEASES.items()}
    versions = {path: match and match[1] for path, match in found.items()}
    wanted = versions["tools/package.sh"]
    for path, version in versions.items():
        yield f"the version of the package in {path}", None if version == wanted and wanted else f"it is {version}, and {wanted} in tools/package.sh"


def all_cases():
    """Every check of the declarations, as cases. If the sources or the template have a mistake, the other checks have nothing to compare."""
    yield from interface.cases()
    try:
        interface.files()
    except Mistake:
        return
    statuses = declared().numbers
    for cases in (change_cases(), file_cases(), use_cases(statuses), handle_cases(), order_cases(statuses), text_cases(statuses), release_cases()):
        yield from cases
