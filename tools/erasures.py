"""The rewrites by which erase.py makes Rust of the tokens of a Rattle source. Its head lists those that carry meaning."""

import re

from rattle_tokens import (
    Token, Unknown, closing, closing_angle, first_of_item, following, functions_of, is_mark, is_name, preceding, separated, signature_end, text_of,
    until,
)

# A call of a method, `.name(..)`, and the name that it gets. So do the methods of that name that a source defines.
# In Rattle these calls return an error if memory runs out, and those of Rust abort, or take no allocator.
METHODS = {
    "allocator": "its_allocator",
    "apply_batch": "try_apply_batch",
    "clone": "try_clone",
    "commit": "try_commit",
    "extend_from_bitmap": "try_extend_from_bitmap",
    "extend_from_slice": "try_extend_from_slice",
    "extend_to": "try_extend_to",
    "gathered": "try_gathered",
    "get_at_commit": "try_get_at_commit",
    "insert": "try_put",
    "prepare": "try_prepare",
    "prove": "try_prove",
    "prove_at": "try_prove_at",
    "prove_range": "try_prove_range",
    "prove_range_at": "try_prove_range_at",
    "prune_to_bit": "try_prune_to_bit",
    "push": "try_push",
    "push_back": "try_push_back",
    "push_byte": "try_push_byte",
    "push_chunk": "try_push_chunk",
    "reserve": "try_reserve",
    "resize": "try_resize",
    "set_bit": "try_set_bit",
    "set_chunk": "try_set_chunk",
    "set_range": "try_set_range",
    "to_bools": "try_to_bools",
    "unprune": "try_unprune",
}

# Rattle's own forms `try_` of these are those that do not chain.
METHODS |= {f"try_{name}": f"{name}_unchained" for name in METHODS if METHODS[name] == f"try_{name}"}

# The same for `Type::name(..)`: functions that take the allocator.
CONSTRUCTORS = {
    "default": "default_within",
    "from_bitmap": "from_bitmap_within",
    "from_bools": "from_bools_within",
    "from_slice": "from_slice_within",
    "from_str": "from_str_within",
    "new": "new_within",
    "new_with_pruned_chunks": "new_with_pruned_chunks_within",
    "ones": "ones_within",
    "with_capacity": "with_capacity_within",
    "zeroes": "zeroes_within",
}

# The same for methods that take the allocator, among others of their name that do not.
METHODS_WITHIN = {"write": "write_within"}

# The same for functions of modules, where they are defined, imported and called. Nothing else has these names.
FUNCTIONS = {
    "append_leaf": "try_append_leaf",
    "append_leaf_in_batch": "try_append_leaf_in_batch",
    "leaf_digests": "try_leaf_digests",
    "prove": "try_prove",
    "prove_from_bitmap": "try_prove_from_bitmap",
    "prove_from_stored": "try_prove_from_stored",
    "prove_range": "try_prove_range",
    "prove_range_from_bitmap": "try_prove_range_from_bitmap",
    "prove_range_from_stored": "try_prove_range_from_stored",
    "replace_leaf_in_batch": "try_replace_leaf_in_batch",
}

# Types that are Rust's own or the host's, whose constructors keep their names.
FOREIGN = ("Cell", "DefaultHasher", "Sha256")

# Renamed functions that the public API replaces, as it does those that are renamed and return no error. Documentation does not show them.
HIDDEN = {new for old, new in METHODS.items() if old.startswith("try_")} | {METHODS["allocator"]}
HIDDEN |= {*CONSTRUCTORS.values(), *METHODS_WITHIN.values()}

# Public functions that take the allocator first. In Rust they take none: in their bodies it is the global one.
WITHOUT_ALLOCATOR = {"Log::begin", "base_bytes", "delta", "from_base", "read_base", "read_history", "recover", *FUNCTIONS.values()}
# These edit a vector or a batch, which has an allocator.
WITHOUT_ALLOCATOR -= {"try_append_leaf", "try_append_leaf_in_batch", "try_replace_leaf_in_batch"}

# Public methods that do nothing when code runs, which proofs call for what their contracts state. Documentation does not show them.
STATEMENTS = {"pruned_counts_rise"}

# Modules whose functions only have another contract than those that they call, by crate. Documentation does not show them.
HIDDEN_MODULES = {("commit_log", ("calls",))}

# Sentences of documentation that are about proofs or do not hold in Rust, each on a line of the sources, and what stands there instead.
SENTENCES = {
    "It is not a default: the type of a bitmap always names its chunk size.": "It is the default.",
    "In contracts its value is the list of the bits that are left.": "",
    "An implementor states which bitmap a value holds (`meaning`) and implements the five functions without a body.":
        "An implementor implements the five functions without a body.",
    "The contracts require that `N` is at least 1, and that `8N` and the length fit `u64`.": "`N` is at least 1, and `8N` and the length fit `u64`.",
    "The final functions do not allocate themselves.": "The functions with a body do not allocate themselves.",
    "A caller for any `N` calls `len()` before it iterates over set positions: the contract of `len` gives its proof the bound on `N`.": "",
    "With it, a call that fails can promise its callers an unchanged value; with a returned `&mut Self` it could not.": "",
    "Each call has the contract of the bitmap's call of the same name.": "Each call does what the bitmap's call of the same name does.",
    # The names that these calls have in Rust.
    "The error of `Read::read_cfg`.": "The error of `decode`.",
    "The error of `apply_batch`.": "The error of `try_apply_batch`.",
    "as an edit returns it for the next edit: `batch.push(true)?.push(false)?`.":
        "as an edit returns it for the next edit: `batch.try_push(true)?.try_push(false)?`.",
    "Tests show that pushes up to `size` bits then do not allocate. No contract states it.": "Pushes up to `size` bits then do not allocate.",
    "Allocates from the allocator of `out`: the history,": "Allocates the history,",
    "Commits a batch, as `commit` does, and appends": "Commits a batch, as `try_commit` does, and appends",
    "Returns the batch, unchanged, with the error of `commit`: that of the number": "Returns the batch, unchanged, with the error of `try_commit`: that of the number",
    "Those of `commit`, in the same order. Also returns the batch, unchanged.": "Those of `try_commit`, in the same order. Also returns the batch, unchanged.",
    "Allocates at most once, from the allocator of `out`, and only": "Allocates at most once, and only",
    "[`commit`](DirtyAuthenticatedBitMap::commit)": "[`try_commit`](DirtyAuthenticatedBitMap::try_commit)",
    "[`prove`](AuthenticatedBitMap::prove)": "[`try_prove`](AuthenticatedBitMap::try_prove)",
    "[`prove_at`](AuthenticatedBitMap::prove_at)": "[`try_prove_at`](AuthenticatedBitMap::try_prove_at)",
    "[`prove_range`](AuthenticatedBitMap::prove_range)": "[`try_prove_range`](AuthenticatedBitMap::try_prove_range)",
    "[`prove_range_at`](AuthenticatedBitMap::prove_range_at)": "[`try_prove_range_at`](AuthenticatedBitMap::try_prove_range_at)",
    "[`leaf_digests`](tree::leaf_digests)": "[`try_leaf_digests`](tree::try_leaf_digests)",
    "[`prove`](tree::prove)": "[`try_prove`](tree::try_prove)",
    "[`prove_range`](range::prove_range)": "[`try_prove_range`](range::try_prove_range)",
    "[`prove_range`](crate::generated::authenticated_bitmap::range::prove_range)": "`prove_range`",
    ", and no proof depends on it.": ".",
    "The laws in [`laws`], [`root`] and [`range`] say what a check is worth. ": "",
}

KNOWN_DERIVES = {"Clone", "Copy", "Debug", "Eq", "Hash", "Ord", "PartialEq", "PartialOrd"}

# What an error derives in Rust, whatever it derives in Rattle. An error with a field that cannot be copied does not compile then.
DERIVES_OF_ERRORS = ["Clone", "Copy", "Debug", "PartialEq", "Eq"]

# What some types derive in Rust in addition.
ADDED_DERIVES = {"Proof": ["Debug", "PartialEq", "Eq"], "RangeProof": ["Debug", "PartialEq", "Eq"]}

# Errors that do not derive thiserror's Error: the hand-written modules have their impls of Display and Error.
HAND_WRITTEN_ERRORS = {"ApplyError"}

KNOWN_ATTRIBUTES = {"allow", "cfg", "cold", "derive", "doc", "error", "inline", "test"}
ERASED_ATTRIBUTES = {"cycle", "tactic"}
KNOWN_MACROS = {"matches", "write", "writeln"}
UNKNOWN_WORDS = {"asm", "extern", "ghost", "static", "union", "unsafe"}


def made(text, line):
    return Token("made", text, line)


def is_path(tokens, at):
    """Whether a `::` begins at `at`."""
    return is_mark(tokens, at, ":") and is_mark(tokens, at + 1, ":")


def line_end(tokens, at):
    """The index after the blank tokens at `at`."""
    while tokens[at].kind == "space":
        at += 1
    return at


def erase_ghosts(tokens, counts):
    """Removes clauses, ghost imports and ghost members, with the comments directly above a ghost item."""
    at = 0
    while at < len(tokens):
        kind = tokens[at].kind
        if kind in ("requires", "ensures", "ghost_use", "ghost_member"):
            counts[kind] += 1
            start = at if kind in ("requires", "ensures") else start_of_ghost_item(tokens, at)
            while kind in ("requires", "ensures") and tokens[start - 1].kind == "space":
                start -= 1
            gap = "\n" if kind in ("requires", "ensures") else "\n\n"
            tokens[start:line_end(tokens, at + 1)] = [Token("space", gap, tokens[at].line)]
            at = start
        at += 1


def start_of_ghost_item(tokens, at):
    """The index of the first comment line directly above the ghost item at `at`, or of the item."""
    while at >= 2 and tokens[at - 1].kind == "space" and tokens[at - 1].text.count("\n") == 1 and tokens[at - 2].kind in ("comment", "doc"):
        at -= 2
    before = preceding(tokens, at - 1)
    return before if is_name(tokens, before, "pub") else at


def erase_attributes(tokens, counts):
    """Removes attributes that are for the prover, and stops at an attribute that is not known."""
    at = 0
    while at < len(tokens):
        opened = at + 1 + is_mark(tokens, at + 1, "!") if is_mark(tokens, at, "#") else at
        if opened == at or not is_mark(tokens, opened, "["):
            at += 1
        elif is_name(tokens, opened + 1, *ERASED_ATTRIBUTES):
            counts["attribute for the prover"] += 1
            del tokens[at:line_end(tokens, closing(tokens, opened) + 1)]
        elif is_name(tokens, opened + 1, *KNOWN_ATTRIBUTES):
            at = opened + 1
        else:
            raise Unknown(f"the attribute `{tokens[opened + 1].text}`", tokens[at].line,
                          "KNOWN_ATTRIBUTES in tools/erasures.py has those that Rust has too, and ERASED_ATTRIBUTES those for the prover")


def erase_imports(tokens, counts):
    """Removes the imports of `Model` and of thiserror. Returns the names by which thiserror's `Error` is derived."""
    names, at = set(), 0
    while at < len(tokens):
        if not is_name(tokens, at, "use"):
            at += 1
            continue
        end = until(tokens, at, ";")
        words = text_of(tokens, at, end).split()
        if words[1].startswith("thiserror::"):
            names.add(words[3] if words[2:3] == ["as"] else "Error")
        if words[1] != "std::marker::Model" and not words[1].startswith("thiserror::"):
            at = end
            continue
        counts["import for proofs or derives"] += 1
        del tokens[at:end + 1 + (tokens[end + 1].text == "\n")]
    return names


def erase_models(tokens, counts):
    """Removes the impls of `Model`, which are empty once their ghost members are gone."""
    at = 0
    while at < len(tokens):
        named = following(tokens, at + 1) if is_name(tokens, at, "impl") else at
        if named != at and is_mark(tokens, named, "<"):
            named = following(tokens, closing_angle(tokens, named) + 1)
        if named == at or not is_name(tokens, named, "Model"):
            at += 1
            continue
        opened = until(tokens, at, "{")
        closed = closing(tokens, opened)
        if any(token.kind != "space" for token in tokens[opened + 1:closed]):
            raise Unknown("an impl of Model with code", tokens[at].line, "the impl is for proofs: move its code to another one")
        counts["impl of Model"] += 1
        at = first_of_item(tokens, at)
        del tokens[at:line_end(tokens, closed + 1)]


def erase_final(tokens, counts):
    """Removes the word `final` before a function of a trait."""
    for at in reversed(range(len(tokens))):
        if is_name(tokens, at, "final") and is_name(tokens, following(tokens, at + 1), "fn"):
            counts["final"] += 1
            del tokens[at:following(tokens, at + 1)]


def erase_drop_bounds(tokens, counts):
    """Removes the bound `Drop`, by which Rattle says that values may be dropped. Each Rust value may be."""
    for at in reversed(range(len(tokens))):
        if not is_name(tokens, at, "Drop"):
            continue
        before, after = preceding(tokens, at - 1), following(tokens, at + 1)
        if is_mark(tokens, before, "+") or is_mark(tokens, before, ":") and not is_mark(tokens, after, "+"):
            del tokens[before:at + 1]
        elif is_mark(tokens, before, ":"):
            del tokens[at:following(tokens, after + 1)]
        else:
            continue
        counts["bound Drop"] += 1


def rewrite_derives(tokens, error_names, formatted, errors, counts):
    """Takes thiserror's derive out of derives, and writes the error out. A derived `Clone` becomes a `TryClone` too.

    `Drop` becomes `Debug`, but for the types in `formatted`, which have an impl of it. An error derives DERIVES_OF_ERRORS. `errors` has the names
    of all types that are errors. The types in ADDED_DERIVES derive more.
    """
    at = 0
    while at < len(tokens):
        if not (is_mark(tokens, at, "#") and is_mark(tokens, at + 1, "[") and is_name(tokens, at + 2, "derive")):
            at += 1
            continue
        closed = closing(tokens, at + 1)
        names = [text_of(tokens, a, b) for a, b in separated(tokens, at + 4, closed - 1)]
        kept = [name for name in names if name not in error_names | {"Drop"}]
        if set(kept) - KNOWN_DERIVES or "Clone" in kept and "Copy" not in kept:
            raise Unknown(f"a derive of {', '.join(kept)}", tokens[at].line,
                          "KNOWN_DERIVES in tools/erasures.py has what can be derived; a derived Clone needs a derived Copy, or write the impl")
        named = tokens[item_of(tokens, closed, "struct", "enum")[1]].text
        if "Drop" in names:
            counts["derive of Drop"] += 1
            kept += [] if "Debug" in kept or named in formatted else ["Debug"]
        if error_names & set(names):
            counts["derive of an error"] += 1
            write_error(tokens, closed + 1, errors)
        if "Clone" in kept:
            counts["derive of Clone"] += 1
            write_try_clone(tokens, closed + 1)
        if error_names & set(names) or named in HAND_WRITTEN_ERRORS:
            kept = DERIVES_OF_ERRORS + [name for name in kept if name not in DERIVES_OF_ERRORS]
        kept += [name for name in ADDED_DERIVES.get(named, []) if name not in kept]
        if kept:
            tokens[at:closed + 1] = [made(f"#[derive({', '.join(kept)})]", tokens[at].line)]
        else:
            del tokens[at:line_end(tokens, closed + 1)]


def names_of_errors(text):
    """The names of the types of a source that derive thiserror's Error."""
    imported = re.search(r"^use thiserror::Error(?: as (\w+))?;", text, re.M)
    found = re.findall(r"#\[derive\(([^)]*)\)\]\s*pub enum (\w+)", text) if imported else []
    return {name for derives, name in found if (imported[1] or "Error") in re.findall(r"\w+", derives)}


def item_of(tokens, at, *words):
    """The index of the first of the words from `at` on, and the name of the item."""
    while not is_name(tokens, at, *words):
        at += 1
    return at, following(tokens, at + 1)


def end_of_type(tokens, at):
    """The index after the struct or enum at `at`."""
    end = until(tokens, at, ";", "{") if is_mark(tokens, until(tokens, at, ";", "{"), ";") else until(tokens, at, "{")
    return end + 1 if is_mark(tokens, end, ";") else closing(tokens, end) + 1


def write_try_clone(tokens, at):
    """Adds an impl of `TryClone` after the type at `at`, which is `Copy`."""
    start, named = item_of(tokens, at, "struct", "enum")
    opened, parameters, arguments = following(tokens, named + 1), "", ""
    if is_mark(tokens, opened, "<"):
        closed = closing_angle(tokens, opened)
        parameters = text_of(tokens, opened + 1, closed)
        names = [re.match(r"(?:const )?('?\w+)", parameter.strip()).group(1) for parameter in parameters.split(",")]
        arguments = f"<{', '.join(names)}>"
    text = f"\n\ncrate::support::clones_by_copy! {{ [{parameters}] {tokens[named].text}{arguments} }}\n"
    tokens.insert(end_of_type(tokens, start), made(text, tokens[start].line))


def write_error(tokens, at, errors):
    """Takes the `#[error(..)]` attributes of the enum at `at` away, and adds impls of Display and Error after it. `errors` has the names of errors."""
    start, named = item_of(tokens, at, "enum")
    opened, name, arms, sources = until(tokens, start, "{"), tokens[named].text, [], []
    at = opened + 1
    while at < closing(tokens, opened):
        if is_mark(tokens, at, "#") and is_name(tokens, at + 2, "error"):
            end = closing(tokens, at + 1)
            message = next(token.text for token in tokens[at:end] if token.kind == "string")
            del tokens[at:line_end(tokens, end + 1)]
            variant, fields = following(tokens, at), fields_of(tokens, following(tokens, at))
            path = f"{name}::{tokens[variant].text}"
            arms.append(arm(path, fields, message))
            sources.append(arm_of_source(path, fields, message, errors, tokens[variant].line))
            at = until(tokens, at, ",", "}")
        at += 1
    text = (
        f"\n\nimpl core::fmt::Display for {name} {{\n    fn fmt(&self, f: &mut core::fmt::Formatter<'_>) -> core::fmt::Result {{\n"
        f"        match self {{\n{''.join(arms)}        }}\n    }}\n}}\n\nimpl core::error::Error for {name} {{{source_function(sources)}}}\n"
    )
    tokens.insert(closing(tokens, opened) + 1, made(text, tokens[start].line))


def fields_of(tokens, variant):
    """The fields of the variant of an enum at `variant`: their names, which are numbers if they have none, with their types."""
    after = following(tokens, variant + 1)
    if not (is_mark(tokens, after, "(") or is_mark(tokens, after, "{")):
        return {}
    fields = [text_of(tokens, a, b) for a, b in separated(tokens, after + 1, closing(tokens, after))]
    if is_mark(tokens, after, "("):
        return {str(k): field for k, field in enumerate(fields)}
    return {name.strip(): of.strip() for name, _, of in (field.partition(":") for field in fields)}


def pattern(path, fields, used):
    """The pattern of a variant that binds the fields in `used`. A field without a name is bound as `field` and its number."""
    if not fields:
        return path
    if "0" in fields:
        return f"{path}({', '.join(f'field{k}' if k in used else '_' for k in fields)})"
    return f"{path} {{ {''.join(f'{field}, ' for field in sorted(used))}.. }}"


def used_in(message):
    """The fields that a message names."""
    return set(re.findall(r"\{(\w+)", message))


def arm(path, fields, message):
    """The arm of `Display::fmt` for a variant and its message, which names its fields."""
    used = used_in(message)
    message = re.sub(r"\{(\d+)", r"{field\1", message)
    return f"            {pattern(path, fields, used)} => write!(f, {message}),\n"


def arm_of_source(path, fields, message, errors, line):
    """The arm of `Error::source` for a variant: the error inside it or, if the message names that one, its source. None if no error is inside."""
    inside = [field for field, of in fields.items() if of.split("::")[-1] in errors]
    if not inside:
        return None
    if len(inside) > 1:
        raise Unknown(f"the errors in `{path}`", line, "arm_of_source in tools/erasures.py has one error in a variant, which is its source")
    bound = f"field{inside[0]}" if inside[0].isdigit() else inside[0]
    source = f"core::error::Error::source({bound})" if inside[0] in used_in(message) else f"Some({bound})"
    return f"            {pattern(path, fields, inside)} => {source},\n"


def source_function(arms):
    """The function `source` of an impl of Error, from the arms of the variants. Without an arm, the trait's own is right, which returns None."""
    found = [arm for arm in arms if arm]
    others = "            _ => None,\n" if len(found) < len(arms) else ""
    head = "\n    fn source(&self) -> Option<&(dyn core::error::Error + 'static)> {\n        match self {\n"
    return f"{head}{''.join(found)}{others}        }}\n    }}\n" if found else ""


def new_name(tokens, function):
    """The name that a function gets."""
    name, (opened, _) = function.name, signature_end(tokens, function.at)
    if not function.scope:
        return FUNCTIONS.get(name, name)
    if name in METHODS_WITHIN and re.match(r"&self, alloc: Global\b", text_of(tokens, opened + 1, closing(tokens, opened))):
        return METHODS_WITHIN[name]
    return (METHODS if function.takes_self else CONSTRUCTORS).get(name, name)


def rename_functions(tokens, counts):
    """Renames the functions of METHODS and CONSTRUCTORS where impls and traits define them, and where they are called. So it does those of
    METHODS_WITHIN, and those of FUNCTIONS, also where they are imported."""
    for function in reversed(functions_of(tokens)):
        name = new_name(tokens, function)
        if name != function.name:
            tokens[function.at].text = name
            counts["renamed function"] += 1
        if function.is_public and is_hidden(tokens, function, name):
            hide(tokens, function)
    for at, token in enumerate(tokens):
        before, after = preceding(tokens, at - 1), following_call(tokens, at)
        if token.kind == "name" and token.text in FUNCTIONS and not is_mark(tokens, before, "."):
            token.text = FUNCTIONS[token.text]
            counts["renamed call"] += is_mark(tokens, after, "(")
        if token.kind != "name" or not is_mark(tokens, after, "("):
            continue
        if is_mark(tokens, before, ".") and token.text in METHODS:
            token.text = METHODS[token.text]
            counts["renamed call"] += 1
        elif is_mark(tokens, before, ".") and token.text in METHODS_WITHIN and takes_allocator(tokens, after):
            token.text = METHODS_WITHIN[token.text]
            counts["renamed call"] += 1
        elif is_mark(tokens, before, ":") and token.text in CONSTRUCTORS and is_type(tokens, before - 2):
            token.text = CONSTRUCTORS[token.text]
            counts["renamed call"] += 1


def takes_allocator(tokens, opened):
    """Whether the first argument of the call whose bracket opens at `opened` is the allocator."""
    return bool(re.fullmatch(r"alloc|\w+\.alloc\(\)", text_of(tokens, opened + 1, until(tokens, opened + 1, ",", ")"))))


def is_hidden(tokens, function, name):
    """Whether documentation does not show a function under this name: it is for proofs, or it is renamed, and the API has another one in its place."""
    opened, end = signature_end(tokens, function.at)
    fails = "Result" in text_of(tokens, closing(tokens, opened), end)
    return function.name in STATEMENTS or name != function.name and (name in HIDDEN or name.startswith("try_") and not fails)


def holder_before(tokens, at):
    """The type before the name at `at` in its path, without generic arguments and with its `::`, or an empty string."""
    holder = at - 3
    if is_path(tokens, at - 2) and is_mark(tokens, holder, ">"):
        while not is_mark(tokens, holder, "<"):
            holder -= 1
        at, holder = holder, holder - 3
    return f"{tokens[holder].text}::" if is_path(tokens, at - 2) and is_type(tokens, holder) else ""


def erase_allocators(tokens, counts):
    """The functions of WITHOUT_ALLOCATOR lose their first parameter, the allocator, and their calls the argument for it.

    A private function of the file that has the name of one of them keeps its parameters.
    """
    for function in reversed(functions_of(tokens)):
        holder = re.match(r"impl\s*(?:<.*?>)?\s*(\w+)", function.scope.header)[1] + "::" if function.scope and function.scope.word == "impl" else ""
        if not function.is_public or holder + function.name not in WITHOUT_ALLOCATOR:
            continue
        opened, _ = signature_end(tokens, function.at)
        end = until(tokens, opened + 1, ",", ")")
        if text_of(tokens, opened + 1, end) != "alloc: Global":
            raise Unknown(f"`{function.name}` without the allocator", tokens[function.at].line,
                          "WITHOUT_ALLOCATOR in tools/erasures.py has functions whose first parameter is `alloc: Global`")
        counts["allocator of a function"] += 1
        tokens.insert(function.opened + 1, made("\nlet alloc = Global;\n", tokens[function.at].line))
        del tokens[opened + 1:line_end(tokens, end + 1)]
    own = {function.name for function in functions_of(tokens) if not function.is_public and not function.scope}
    for at in reversed(range(len(tokens))):
        if tokens[at].kind != "name" or is_name(tokens, preceding(tokens, at - 1), "fn"):
            continue
        if tokens[at].text in own and not is_path(tokens, at - 2):
            continue
        opened = following_call(tokens, at)
        if holder_before(tokens, at) + tokens[at].text in WITHOUT_ALLOCATOR and is_mark(tokens, opened, "(") and not is_mark(tokens, preceding(tokens, at - 1), "."):
            counts["allocator of a call"] += 1
            del tokens[opened + 1:line_end(tokens, until(tokens, opened + 1, ",") + 1)]


def check_allocators(tokens, exported):
    """Stops at a public function that takes the allocator, which users of the crate do not have. `exported` has the items that users reach."""
    for function in functions_of(tokens):
        opened, _ = signature_end(tokens, function.at)
        if function.is_public and (function.scope or function.name in exported) and re.search(r"\bGlobal\b", text_of(tokens, opened, closing(tokens, opened))):
            raise Unknown(f"the allocator as a parameter of `{function.name}`", tokens[function.at].line,
                          "WITHOUT_ALLOCATOR in tools/erasures.py has the functions whose first parameter it is, and which take none in Rust")


def hide(tokens, function):
    """Keeps a public function that the API replaces out of the documentation."""
    at = function.at
    while not is_name(tokens, at, "pub"):
        at -= 1
    tokens.insert(at, made("#[doc(hidden)]\n", tokens[at].line))


def hide_functions(tokens):
    """Keeps the public functions of a source out of the documentation."""
    for function in reversed(functions_of(tokens)):
        if function.is_public:
            hide(tokens, function)


def following_call(tokens, at):
    """The index of what follows the name at `at` and its generic arguments."""
    after = following(tokens, at + 1) if tokens[at].kind != "end" else at
    if is_path(tokens, after) and is_mark(tokens, after + 2, "<"):
        after = following(tokens, closing_angle(tokens, after + 2) + 1)
    return after


def is_type(tokens, at):
    """Whether the path that ends at `at` is that of a type which is not Rust's own: its last name begins with a capital letter."""
    if is_mark(tokens, at, ">"):
        while not is_mark(tokens, at, "<"):
            at -= 1
        at -= 3
    return tokens[at].kind == "name" and tokens[at].text[0].isupper() and tokens[at].text not in FOREIGN


def rewrite_clones(tokens, counts):
    """An impl of Rattle's `Clone`, which may fail, is one of `TryClone`. `collect` with an allocator is `collect_within`."""
    for at in range(len(tokens)):
        named = following(tokens, at + 1) if is_name(tokens, at, "impl") else at
        if named != at and is_mark(tokens, named, "<"):
            named = following(tokens, closing_angle(tokens, named) + 1)
        if named != at and is_name(tokens, named, "Clone"):
            counts["impl of Clone"] += 1
            tokens[named].text = "TryClone"
        opened = following_call(tokens, at) if is_name(tokens, at, "collect") and is_mark(tokens, preceding(tokens, at - 1), ".") else at
        if opened != at and is_mark(tokens, opened, "(") and not is_mark(tokens, following(tokens, opened + 1), ")"):
            counts["collect with an allocator"] += 1
            tokens[at].text = "collect_within"


def rewrite_formatters(tokens, counts):
    """`fmt::Formatter<W>` over any `W: fmt::Write` is Rust's `fmt::Formatter<'_>`, and the parameter `W` goes."""
    for at in reversed(range(len(tokens))):
        if not is_name(tokens, at, "W"):
            continue
        before, after = preceding(tokens, at - 1), following(tokens, at + 1)
        if is_mark(tokens, before, "<") and is_name(tokens, preceding(tokens, before - 1), "Formatter"):
            tokens[at] = Token("lifetime", "'_", tokens[at].line)
        elif is_mark(tokens, after, ":") and text_of(tokens, after, after + 6).replace(" ", "") == ":fmt::Write":
            counts["writer of a formatter"] += 1
            end = following(tokens, after + 6)
            is_only = is_mark(tokens, before, "<") and is_mark(tokens, end, ">")
            if not is_only and not is_mark(tokens, before, ","):
                raise Unknown("a writer that is not the last parameter", tokens[at].line, "rewrite_formatters in tools/erasures.py erases the last one")
            del tokens[before:end + is_only]


def erase_modules(tokens, names, counts):
    """Removes the declarations of the modules in `names`, and what is imported from them."""
    at = 0
    while at < len(tokens):
        named = following(tokens, at + 1) if is_name(tokens, at, "mod", "use") else at
        if is_name(tokens, at, "use") and is_name(tokens, named, "crate", "self"):
            named = following(tokens, named + 3)
        end = until(tokens, named, ";") if named != at and is_name(tokens, named, *names) else None
        if end and (is_name(tokens, at, "use") or end == named + 1):
            counts["module of laws"] += is_name(tokens, at, "mod")
            at = first_of_item(tokens, at)
            del tokens[at:line_end(tokens, end + 1)]
        else:
            at += 1


def laws_in(tokens):
    """The laws of a source: the public functions without parameters whose body is empty."""
    found = [function for function in functions_of(tokens) if function.is_public and not function.scope]
    return [f for f in found if is_mark(tokens, following(tokens, following(tokens, f.at + 1) + 1), ")") and following(tokens, f.opened + 1) == f.closed]


def erase_laws(tokens, counts):
    """Removes the laws of a source, with their documentation."""
    for function in reversed(laws_in(tokens)):
        counts["law"] += 1
        del tokens[first_of_item(tokens, preceding(tokens, function.at - 1)):line_end(tokens, function.closed + 1)]


def rewrite_links(tokens, unlinked, root):
    """Links in documentation: those to items in `unlinked`, which are left out, become code, and those from `crate` are from `root`."""
    for token in tokens:
        if token.kind in ("doc", "inner_doc"):
            text = re.sub(r"\[(`\w+`)\](?:\([\w:]+\))?", lambda link: link[1] if link[1].strip("`") in unlinked else link[0], token.text)
            token.text = text.replace("](crate::", f"]({root}::")


def rewrite_paths(tokens, crate, roots, std, counts):
    """Paths that begin with `crate`, `std` or the name of a Rattle crate: `roots` has the path of each crate, and `std` that of the support."""
    for at, token in enumerate(tokens):
        before, after = preceding(tokens, at - 1), following(tokens, at + 1) if token.kind != "end" else at
        if token.kind != "name" or not is_path(tokens, after) or is_mark(tokens, before, ":") and is_mark(tokens, before - 1, ":"):
            continue
        root = {"crate": roots.get(crate), "std": std}.get(token.text, roots.get(token.text))
        if root:
            counts["path"] += 1
            token.text = root


def erase_examples(tokens, counts):
    """Removes the examples of doc comments, which are in Rattle, with the heading or the sentence that announces them."""
    at = 0
    while at < len(tokens):
        if tokens[at].kind not in ("doc", "inner_doc"):
            at += 1
            continue
        kind, end = tokens[at].kind, at + 1
        while tokens[end].kind == "space" and tokens[end].text.count("\n") == 1 and tokens[end + 1].kind == kind:
            end += 2
        lines = [in_rust(token.text, counts) for token in tokens[at:end] if token.kind == kind]
        kept = lines_without_examples([line for line in lines if line], counts)
        gap = tokens[at + 1] if end > at + 1 else None
        fresh = [part for line in kept for part in (Token(kind, line, tokens[at].line), gap)][:-1]
        tokens[at:end] = fresh
        at += max(len(fresh), 1)


def in_rust(line, counts):
    """The line of a doc comment with the sentences that SENTENCES has for Rust, or None if no sentence is left."""
    for sentence, instead in SENTENCES.items():
        if sentence in line:
            counts[sentence] += 1
            line = line.replace(sentence, instead).rstrip()
            if not line[3:].strip():
                return None
    return line


def lines_without_examples(lines, counts):
    """The lines of a doc comment without its blocks of code, and without what announces one. Empty lines that follow each other are one."""
    kept, in_block = [], False
    for line in lines:
        if not in_block and kept and not line[3:].strip() and not kept[-1][3:].strip():
            continue
        if line[3:].strip() == "```":
            in_block = not in_block
            counts["example in Rattle"] += in_block
            while in_block and kept and (kept[-1][3:].strip() in ("", "# Examples") or kept[-1].endswith(":")):
                kept.pop()
        elif not in_block:
            kept.append(line)
    while kept and not kept[-1][3:].strip():
        kept.pop()
    return kept


def add_prelude(tokens, prelude):
    """Each module, a file or one with braces, imports the support's prelude."""
    text = f"#[allow(unused_imports)]\nuse {prelude}::*;\n"
    for at in reversed(range(len(tokens))):
        opened = following(tokens, following(tokens, at + 1) + 1) if is_name(tokens, at, "mod") else at
        if opened != at and is_mark(tokens, opened, "{"):
            tokens.insert(opened + 1, made("\n" + text, tokens[at].line))
    at = 0
    while tokens[at].kind in ("space", "inner_doc") or is_mark(tokens, at, "#") and is_mark(tokens, at + 1, "!"):
        at = closing(tokens, at + 2) + 1 if tokens[at].kind == "mark" else at + 1
    tokens.insert(at, made(text, 1))


def check_known(tokens):
    """Stops at a word or a macro that no rewrite knows."""
    defined = {tokens[following(tokens, at + 2)].text for at in range(len(tokens)) if is_name(tokens, at, "macro_rules")}
    for at, token in enumerate(tokens):
        if is_name(tokens, at, *UNKNOWN_WORDS) or is_name(tokens, at, "Drop") and not is_mark(tokens, preceding(tokens, at - 1), ":"):
            raise Unknown(f"the word `{token.text}`", token.line, "no rewrite in tools/erasures.py is for this word here; UNKNOWN_WORDS lists such words")
        is_macro = token.kind == "name" and is_mark(tokens, at + 1, "!") and not is_mark(tokens, at + 2, "=")
        if is_macro and token.text not in KNOWN_MACROS | defined | {"macro_rules"}:
            raise Unknown(f"the macro `{token.text}!`", token.line, "KNOWN_MACROS in tools/erasures.py has those that mean the same in Rust")


def without_blank_runs(text):
    return re.sub(r"\n{3,}", "\n\n", text)
