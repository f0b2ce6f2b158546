"""The conditions of public functions, as erase.py writes them in Rust: a `requires` becomes an `assert!` at the start of the body.

FORMS has the forms of conditions, with the assertions and the words of each. MESSAGES has the messages that the original crate gives.
A condition of another form stops erase.py.
"""

import re
from dataclasses import dataclass

from rattle_tokens import Unknown

LEN = r"(?:length self|bit_len N self)"
WIDTH = "8 * N as u64"
PRUNED_BITS = f"self.pruned_chunks() as u64 * ({WIDTH})"


@dataclass
class Form:
    """A form of conditions: a pattern of the clause, the assertions as pairs of a test and a message, and the words of `# Panics`.

    `$1` in an assertion or in the words is the first group of the pattern. A form on `N` alone is tested at compile time.
    """

    name: str
    pattern: str
    assertions: list
    words: str
    at_compile_time: bool = False


OUT_OF_BOUNDS = '"bit {} out of bounds (len: {})", $1, self.len()'

FORMS = [
    Form("width", r"IsWidth N", [("N > 0", '"chunk size must be > 0"'), ("N < 1 << 61", '"chunk size must be below 2^61"')],
         "`N` is 0, or `8N` does not fit `u64`", True),
    Form("width_fits", r"8 \* N < 2 \^ 64", [("N < 1 << 61", '"chunk size must be below 2^61"')], "`8N` does not fit `u64`", True),
    Form("positive", r"0 < N", [("N > 0", '"chunk size must be > 0"')], "`N` is 0", True),
    Form("indexed_chunk", r"8 \+ N < 2 \^ 64", [("N <= usize::MAX - 8", '"chunk size must be at most 2^64 - 9"')], "`8 + N` does not fit `usize`", True),
    Form("below", rf"([a-z]\w*) < {LEN}", [("$1 < self.len()", OUT_OF_BOUNDS)], "`$1` is not below the length"),
    Form("up_to", rf"(\w+) ≤ {LEN}", [("$1 <= self.len()", OUT_OF_BOUNDS)], "`$1` is above the length"),
    Form("range_end", rf"range\.end ≤ {LEN}", [("range.end <= self.len()", '"range end {} out of bounds (len: {})", range.end, self.len()')],
         "the range ends after the length"),
    Form("range_start", r"pruned_bits N self ≤ range\.start", [(f"{PRUNED_BITS} <= range.start", '"range start {} is pruned", range.start')],
         "the range starts below the first position that is not pruned"),
    Form("not_empty", rf"0 < {LEN}", [("!self.is_empty()", '"Cannot pop from empty bitmap"')], "the bitmap is empty"),
    Form("retained_bits", r"0 < length self\.bits|8 \* N \* self\.pruned < self\.len", [(f"{PRUNED_BITS} < self.len()", '"no bit is retained"')],
         "no bit is retained"),
    Form("same_length", rf"{LEN} ≡ length other",
         [("self.len() == other.len()", '"BitMap lengths don\'t match: {} vs {}", self.len(), other.len()')], "the lengths differ"),
    Form("space", rf"{LEN} \+ (1|8) < 2 \^ 64", [("self.len() <= u64::MAX - $1", '"length overflows u64"')], "the new length does not fit `u64`"),
    Form("space_of_chunk", rf"{LEN} \+ 8 \* N < 2 \^ 64", [(f"self.len() <= u64::MAX - ({WIDTH})", '"length overflows u64"')],
         "the new length does not fit `u64`"),
    Form("space_of_other", rf"{LEN} \+ length other < 2 \^ 64", [("self.len() <= u64::MAX - other.len()", '"length overflows u64"')],
         "the new length does not fit `u64`"),
    Form("chunk_aligned", rf"{LEN} % \(8 \* N\) ≡ 0", [(f"self.len() % ({WIDTH}) == 0", '"not chunk aligned"')],
         "the length is not a multiple of `8N`"),
    Form("byte_aligned", rf"{LEN} % 8 ≡ 0", [("self.len() % 8 == 0", '"not byte aligned"')], "the length is not a multiple of 8"),
    Form("retained", r"IsRetained N self (\w+)", [(f"{PRUNED_BITS} <= $1", '"bit pruned: {}", $1'), ("$1 < self.len()", OUT_OF_BOUNDS)],
         "`$1` is pruned, or not below the length"),
    Form("retained_chunk", r"IsRetainedChunk N self (\w+)", [
        ("self.pruned_chunks() <= $1", '"chunk {} is pruned (pruned_chunks: {})", $1, self.pruned_chunks()'),
        (f"($1 as u64) < self.len().div_ceil({WIDTH})", f'"chunk {{}} out of bounds (chunks: {{}})", $1, self.len().div_ceil({WIDTH})')],
        "the chunk `$1` has no retained bit"),
    Form("chunk_of_current", r"([a-z]\w*) < chunk_total N self\.bits\.current",
         [("$1 < self.bits.current().chunks_len()", '"chunk {} out of bounds (chunks: {})", $1, self.bits.current().chunks_len()')],
         "the current bitmap has no chunk `$1`"),
    Form("range_of_current", r"first \+ count ≤ chunk_total N self\.bits\.current",
         [("first <= self.bits.current().chunks_len() && count <= self.bits.current().chunks_len() - first",
           '"range of {} from {} out of bounds (chunks: {})", count, first, self.bits.current().chunks_len()')],
         "the range ends after the last chunk of the current bitmap"),
    Form("not_pruned", r"pruned_bits N self ≤ (\w+)", [(f"{PRUNED_BITS} <= $1", '"bit {} is pruned", $1')],
         "`$1` is below the first position that is not pruned"),
    Form("past_the_end", r"bit_len N self ≤ pruned_bits N (\w+)",
         [(f"self.len() <= $1.pruned_chunks() as u64 * ({WIDTH})", '"{} pruned chunks are less than the length ({} bits)", $1.pruned_chunks(), self.len()')],
         "`$1` has fewer pruned bits than the current bitmap has bits"),
    Form("pruned_before", r"length (\w+) ≤ self\.pruned",
         [("$1.len() <= self.pruned_chunks()", '"cannot unprune {} chunks (only {} pruned)", $1.len(), self.pruned_chunks()')],
         "`$1` has more chunks than are pruned"),
    Form("chunk_start", r"8 \* N \* (\w+) < 2 \^ 64", [(f"$1 as u64 <= u64::MAX / ({WIDTH})", '"chunk {} starts past u64::MAX", $1')],
         "the first position of the chunk does not fit `u64`"),
    Form("encoded_size", r"div_ceil (\w+) \(8 \* N\) \* N \+ 8 < 2 \^ 64",
         [(f"$1.div_ceil({WIDTH}) as usize <= (usize::MAX - 8) / N", '"chunk count must fit in usize"')], "the size does not fit `usize`"),
    Form("not_empty_slice", r"0 < length (\w+)", [("!$1.is_empty()", '"$1 is empty"')], "`$1` is empty"),
    Form("index_of_slice", r"([a-z]\w*) < length (\w+)", [("$1 < $2.len()", '"index {} out of bounds (len: {})", $1, $2.len()')],
         "`$1` is not below the number of `$2`"),
    Form("some_chunk", r"0 < count", [("count > 0", '"a range has at least one chunk"')], "`count` is 0"),
    Form("range_of_slice", r"first \+ count ≤ length (\w+)",
         [("first <= $1.len() && count <= $1.len() - first", '"range of {} from {} out of bounds (len: {})", count, first, $1.len()')],
         "the range ends after the last of `$1`"),
    Form("range_of_leaves", r"first \+ count ≤ ([a-z])",
         [("first <= $1 && count <= $1 - first", '"range of {} from {} out of bounds (len: {})", count, first, $1')],
         "the range ends after leaf `$1 - 1`"),
    Form("below_other", r"([a-z]\w*) < ([a-z]\w*)", [("$1 < $2", '"index {} out of bounds (len: {})", $1, $2')], "`$1` is not below `$2`"),
    Form("below_number", r"([a-z]\w*) < (\d+)", [("$1 < $2", '"$1 {} is not below $2", $1')], "`$1` is not below $2"),
    Form("below_power", r"([a-z]\w*) < 2 \^ (\d+)", [("$1 < 1 << $2", '"$1 {} is not below 2^$2", $1')], "`$1` is not below 2^$2"),
    Form("up_to_power", r"([a-z]\w*) ≤ 2 \^ (\d+)", [("$1 <= 1 << $2", '"$1 {} is above 2^$2", $1')], "`$1` is above 2^$2"),
    Form("subtree_fits", r"\((\w+) \+ 1\) \* 2 \^ (\w+) < 2 \^ 62",
         [("$1 < (1 << (62 - $2)) - 1", '"subtree {} of level {} does not end below 2^62", $1, $2')], "the subtree does not end below leaf 2^62"),
    Form("stored_count", r"length (\w+)(?:\.items)? ≡ nodes (\w+)",
         [("$1.len() as u64 == crate::generated::authenticated_bitmap::store::node_count($2)", '"{} digests are stored for {} leaves", $1.len(), $2')],
         "the number of `$1` is not `node_count($2)`"),
    Form("stored_bitmap", r"\(B\.meaning (\w+)\)\.len ≡ 256 \* nodes (\w+)",
         [("$1.len() == 256 * crate::generated::authenticated_bitmap::store::node_count($2)", '"{} bits of digests are stored for {} leaves", $1.len(), $2')],
         "the number of chunks of `$1` is not `node_count($2)`, or the last is not full"),
    Form("stored_batch", r"bit_len 32 \(pending_of 32 (\w+)\) ≡ 256 \* nodes (\w+)",
         [("$2 < 1 << 56 && $1.len() % 256 == 0 && $1.len() / 256 == crate::generated::authenticated_bitmap::store::node_count($2)",
           '"{} bits of digests are stored for {} leaves", $1.len(), $2')],
         "the number of chunks of `$1` is not `node_count($2)`, or the last is not full"),
    Form("nothing_pruned", r"\((?:B\.meaning|pending_of 32) (\w+)\)\.pruned ≡ 0", [("$1.pruned_chunks() == 0", '"$1 has pruned chunks"')], "chunks of `$1` are pruned"),
    Form("space_of_slice", r"(\w+)\.at \+ length (\w+) < 2 \^ 64", [("$2.len() as u64 <= u64::MAX - $1.at", '"the bytes end past position 2^64 - 1"')],
         "`$2` ends past position `u64::MAX` of the log"),
    Form("past_number", r"past_number (\w+) < 2 \^ 64 - 1",
         [("!matches!($1, crate::generated::commit_log::Past::Dropped(u64::MAX) | crate::generated::commit_log::Past::KeptUnder { number: u64::MAX, .. })",
           '"the number u64::MAX is reserved"')], "the number of `$1` is `u64::MAX`"),
    Form("clear_past_end", rf"\(k : ℕ\) → {LEN} ≤ k → k / \(8 \* N\) ≡ index → chunk_bit N chunk k ≡ false",
         [(f"!crate::generated::bitmap_bytes::chunk::is_set_from(chunk, self.len().saturating_sub(({WIDTH}) * index as u64))",
           '"non-zero bits beyond bitmap length"')], "`chunk` has a set bit at or past the length"),
]

# Conditions without an assertion, and why a caller cannot break them.
WITHOUT_TEST = {
    r"length \(encoded self\) < 2 \^ 64": "an encoding is at most eight or sixteen bytes longer than the memory of the bitmap",
    r"AcceptsBegun .*": "it is the condition of the closure, which is Rust: the calls in it have assertions",
    r"Follows .*": "native/src/roots/versions.rs lends no bitmap of a batch that a caller could replace, and no edit breaks it",
}

# The original's messages, by type, function as it is named in the source, and form: one message per assertion of the form.
PRUNED_UP_TO = "$1, $1 / (8 * N as u64), self.pruned_chunks()"
OFFSET = '"bit offset {} out of bounds (len: {})", $1, self.len()'
MESSAGES = {
    ("BitMap", "truncate", "up_to"): ['"cannot truncate to a larger size"'],
    ("BitMap", "push_chunk", "chunk_aligned"): ['"cannot add chunk when not chunk aligned"'],
    ("Prunable", "truncate", "up_to"): ['"cannot truncate to a larger size"'],
    ("Prunable", "truncate", "not_pruned"): ['"cannot truncate into pruned region"'],
    ("Prunable", "push_chunk", "chunk_aligned"): ['"cannot add chunk when not chunk aligned"'],
    ("Prunable", "push_byte", "byte_aligned"): ['"cannot add byte when not byte aligned"'],
    ("Prunable", "pop", "retained_bits"): ['"Cannot pop from empty bitmap"'],
    ("Prunable", "pop_chunk", "chunk_aligned"): ['"cannot pop chunk when not chunk aligned"'],
    ("Prunable", "pop_chunk", "retained_bits"): ['"cannot pop chunk: bitmap has fewer than CHUNK_SIZE_BITS bits"'],
    ("Prunable", "set_chunk_by_index", "retained_chunk"): [
        '"cannot set pruned chunk {} (pruned_chunks: {})", $1, self.pruned_chunks()',
        '"chunk index {} out of bounds (chunks_len: {})", $1, self.chunks_len()',
    ],
    ("DirtyBitMap", "get_bit", "retained"): [f'"cannot get bit {{}}: chunk {{}} is pruned (pruned up to chunk {{}})", {PRUNED_UP_TO}', OFFSET],
    ("DirtyBitMap", "get_chunk", "retained"): [
        f'"cannot get chunk at bit offset {{}}: chunk {{}} is pruned (pruned up to chunk {{}})", {PRUNED_UP_TO}', OFFSET,
    ],
    ("DirtyBitMap", "set_bit", "retained"): [
        f'"cannot set bit {{}}: chunk {{}} is pruned (pruned up to chunk {{}})", {PRUNED_UP_TO}',
        '"cannot set bit {}: out of bounds (len: {})", $1, self.len()',
    ],
    ("DirtyBitMap", "pop", "retained_bits"): ['"cannot pop from empty bitmap"'],
    ("DirtyBitMap", "prune_to_bit", "up_to"): ['"cannot prune to bit {}: beyond projected length ({})", $1, self.len()'],
}


@dataclass
class Condition:
    """A condition of a function: its clause, its form (None without a test), its assertions in Rust, and its words."""

    clause: str
    form: Form
    assertions: list
    words: str


def terms_of(clause):
    """The terms of a clause, on one line, without its keyword and name."""
    return " ".join(clause[clause.index("{") + 1:-1].split())


def normal(terms):
    """The terms with the value of `self` written as `self`: its pending bitmap, its meaning and its current bitmap alike."""
    terms = re.sub(r"\.(old|now|entry)\b", "", terms)
    terms = re.sub(r"\(pending_of N self(\.on)?\)|pending_of N self(\.on)?|\(meaning self\)", "self", terms)
    return terms.replace("self.current", "self").replace("self.on", "self")


def holder_of(scope):
    """The type that an impl is of, under the name by which the original calls it."""
    named = re.sub(r"^impl\s*(<[^{]*?>)?\s*(?=[A-Z])", "", scope.header)
    named = named.split(" for ")[-1]
    return "DirtyBitMap" if "Dirty" in named or named.startswith("Edit") else re.match(r"\w+", named).group()


def condition_of(clause, scope, function):
    """The condition in a clause. `scope` is the impl or trait of the function, or None."""
    terms = terms_of(clause)
    for pattern in WITHOUT_TEST:
        if re.fullmatch(pattern, normal(terms)):
            return Condition(terms, None, [], "")
    for form in FORMS:
        found = re.fullmatch(form.pattern, normal(terms))
        if found:
            is_impl = scope is not None and scope.word == "impl"
            key = (holder_of(scope) if is_impl else "", function.removeprefix("try_"), form.name)
            messages = MESSAGES.get(key, [message for _, message in form.assertions])
            receiver = "self.on." if is_impl and "Edit<" in scope.header else "self."
            filled = [filled_in(f"{test}, {message}", found, receiver) for (test, _), message in zip(form.assertions, messages)]
            return Condition(terms, form, filled, filled_in(form.words, found, "self."))
    raise Unknown(f"the condition `{normal(terms)}` of `{function}`",
                  help="FORMS in tools/conditions.py has the forms of conditions with their assertions, and WITHOUT_TEST those that need none")


def filled_in(text, found, receiver):
    """The text with the groups of a pattern filled in, and with the receiver of the calls on `self`."""
    for index, group in enumerate(found.groups(), 1):
        text = text.replace(f"${index}", group or "")
    return text.replace("self.", receiver)


def assertions_of(conditions):
    """The lines of the assertions, in an order in which no test before another can panic: those at compile time first."""
    lines = []
    for condition in sorted(conditions, key=lambda c: not (c.form and c.form.at_compile_time)):
        call = "const {{ assert!({}) }};" if condition.form and condition.form.at_compile_time else "assert!({});"
        lines += [call.format(assertion) for assertion in condition.assertions]
    return lines


def panics_of(conditions):
    """The lines of documentation on the conditions: the section `# Panics`, and what does not compile."""
    run, compiled = ([c.words for c in conditions if c.form and c.form.at_compile_time == late] for late in (False, True))
    lines = ["# Panics", "", "Panics if " + "; or if ".join(dict.fromkeys(run)) + "."] if run else []
    return lines + ([""] if run and compiled else []) + (["Does not compile if " + "; or if ".join(compiled) + "."] if compiled else [])
